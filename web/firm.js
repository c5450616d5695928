// The firm that serves this page: its name, its colours, and where its customers find help. This
// is the one file to change; docs/PAGE.md tells what each line does.

export const firm = {
  // stands at the head of the page and in the title of its tab; "" is no name
  name: "",
  // a picture beside the name: a file of this folder
  logo: "icon.svg",
  // of buttons, links and what is chosen; one that is too pale to read on its ground is not taken
  colours: { light: "#164f94", dark: "#8ab8f5" },
  // addresses of pages, or "": where people log in, and where they find help
  login: "",
  help: "",
};
