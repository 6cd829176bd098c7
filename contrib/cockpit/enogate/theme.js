// Follows the colours that the user has chosen in Cockpit: light, dark, or those of the system.

const STYLE_KEY = "shell:style";
const darkQuery = matchMedia("(prefers-color-scheme: dark)");

function applyTheme() {
    const style = localStorage.getItem(STYLE_KEY) || "auto";
    document.documentElement.classList.toggle("dark", style === "dark" || style === "auto" && darkQuery.matches);
}

darkQuery.addEventListener("change", applyTheme);
// Cockpit stores the choice in another frame.
addEventListener("storage", applyTheme);
applyTheme();
