"""Mail comes in from Postfix, and is submitted to the desk."""
