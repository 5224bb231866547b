import "./setup.js";
import "./pages/home.js";

start("app");
