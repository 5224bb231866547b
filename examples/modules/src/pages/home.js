import "../setup.js";

show("home", 1);
