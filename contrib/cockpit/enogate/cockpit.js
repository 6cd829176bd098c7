// The object of base1/cockpit.js, which index.html loads before the modules.

export const cockpit = window.cockpit;

// _ and ngettext translate a message, which is a whole sentence, by po.js. N_ marks one that is translated elsewhere.
export const { gettext: _, ngettext, format, noop: N_ } = cockpit;
