// The address of a view: #/SECTION, or #/SECTION/PART.

/** The sections, and which parts each of them has. */
const PARTS = new Map([
    ["overview", /^$/], ["devices", /^(?:heard|misfit|silent|weak|battery|actuators)?$/], ["device", /^[0-9A-F]{8}$/],
    ["groups", /^$/], ["add", /^$/], ["packets", /^$/],
]);

export const addressOf = (section, part = "") => `#/${section}${part && `/${part}`}`;

/** The section and the part that an address names. Any other text is the address of the Overview. */
export function viewOf(address) {
    const [, section, part = ""] = address.match(/^#\/([a-z]+)(?:\/([A-Za-z0-9]+))?$/) || [];
    return PARTS.get(section)?.test(part) ? { section, part } : { section: "overview", part: "" };
}
