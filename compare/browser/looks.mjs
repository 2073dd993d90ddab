// How a page is for people who see, hear or point less: names, keys, contrast, narrow screens.

const CONTROLS = ["button", "combobox", "slider", "spinbutton", "checkbox", "radio", "tab", "progressbar", "image", "tabpanel", "group"];

// Every control has a name that a screen reader can say.
export async function compareNames(count, page, view) {
    const { nodes } = await page.send("Accessibility.getFullAXTree");
    const controls = nodes.filter(({ ignored, role }) => !ignored && CONTROLS.includes(role?.value) && role.value !== "group");
    count.holds(controls.length > 5, `${view}: controls are found`);
    for (const { role, name } of controls) count.holds(name?.value?.trim(), `${view}: a ${role.value} without a name`);
}

// Every control that is to be seen is reached by the key Tab.
export async function compareKeys(count, page, view) {
    const wanted = await page.run(`[...document.querySelectorAll("button, select, input, summary")].filter((e) => e.checkVisibility() && !e.disabled && e.tabIndex >= 0)
        .map((e, i) => (e.dataset.control = i, e.type === "radio" ? "radio" : String(i)))`);
    const reached = new Set();
    await page.run("document.activeElement.blur(), getSelection().removeAllRanges(), document.body.tabIndex = -1, document.body.focus(), 0");
    for (let presses = 0; presses < wanted.length + 5; presses++) {
        await page.key("Tab");
        reached.add(await page.run(`document.activeElement.type === "radio" ? "radio" : document.activeElement.dataset.control ?? ""`));
    }
    for (const control of new Set(wanted)) count.holds(reached.has(control), `${view}: not reached by Tab: ${await page.run(`document.querySelector('[data-control="${control}"]')?.outerHTML ?? "radio"`)}`);
}

// The contrast of every text with what lies behind it: 4.5 to 1, and 3 to 1 for large letters.
const contrasts = () => {
    const channel = (value) => (value <= 0.03928 ? value / 12.92 : ((value + 0.055) / 1.055) ** 2.4);
    const numbers = (colour) => colour.match(/[\d.]+/g).map(Number);
    const light = ([red, green, blue]) => 0.2126 * channel(red / 255) + 0.7152 * channel(green / 255) + 0.0722 * channel(blue / 255);
    const behind = (element) => {
        const colour = numbers(getComputedStyle(element).backgroundColor);
        return colour[3] === 0 && element.parentElement ? behind(element.parentElement) : colour;
    };
    const texts = [...document.querySelectorAll("body *")].filter((element) => element.checkVisibility() && !element.disabled && !["SCRIPT", "OPTION", "NOSCRIPT"].includes(element.tagName)
        && [...element.childNodes].some((node) => node.nodeType === 3 && node.textContent.trim()));
    return texts.map((element) => {
        const style = getComputedStyle(element), [one, other] = [light(numbers(style.color)), light(behind(element))].sort((a, b) => b - a);
        const size = parseFloat(style.fontSize), large = size >= 24 || (size >= 18.66 && Number(style.fontWeight) >= 700);
        return { ratio: (one + 0.05) / (other + 0.05), least: large ? 3 : 4.5, text: element.textContent.trim().slice(0, 60) };
    });
};

export async function compareContrast(count, page, view) {
    for (const { ratio, least, text } of await page.run(`(${contrasts})()`)) count.holds(ratio >= least, `${view}: contrast ${ratio.toFixed(2)} of “${text}”`);
}

export async function compareWidth(count, page, view) {
    const [wide, has] = await page.run("[document.documentElement.scrollWidth, innerWidth]");
    count.holds(wide <= has, `${view}: ${wide} pixels wide on a screen of ${has}`);
}
