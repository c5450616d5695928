"""What is due goes to the Postfix that delivers, and its outcomes come back to the desk."""
