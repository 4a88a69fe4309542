// text.js: a page of docs/, shown as a browser would: headings, paragraphs, lists, tables and code. Everything becomes a text node,
// never HTML; a link is shown by its words, since the pages beside it are not here.
export const element = (tag, attributes = {}, ...children) => {
    const node = document.createElement(tag);
    for (const [name, value] of Object.entries(attributes)) node.setAttribute(name, value);
    node.append(...children);
    return node;
};

// The words of a text line: code between ` `, bold between ** **, and the words of links.
export function words(text) {
    return text.replace(/!?\[([^\]]*)\]\([^)]*\)/g, "$1").split(/(`[^`]*`|\*\*[^*]*\*\*)/).filter(Boolean).map((part) =>
        part.startsWith("`") ? element("code", {}, part.slice(1, -1))
            : part.startsWith("**") ? element("strong", {}, part.slice(2, -2)) : part);
}

const row = (line, tag) => element("tr", {}, ...line.split("|").slice(1, -1).map((cell) => element(tag, {}, ...words(cell.trim()))));

// A block, which begins at a line, and how many lines it has.
function block(lines, at) {
    const until = (test) => {
        let end = at;
        while (end < lines.length && test(lines[end])) end++;
        return lines.slice(at, end);
    };
    const heading = /^(#+) (.*)/.exec(lines[at]);
    if (heading) return [element(`h${Math.min(heading[1].length + 1, 4)}`, {}, ...words(heading[2])), 1];
    if (lines[at].startsWith("    ")) {
        const code = until((line) => line.startsWith("    ") || line === "");
        return [element("pre", {}, element("code", {}, code.map((line) => line.slice(4)).join("\n").trimEnd())), code.length];
    }
    if (lines[at].startsWith("|")) {
        const rows = until((line) => line.startsWith("|"));
        return [element("table", {}, row(rows[0], "th"), ...rows.slice(2).map((line) => row(line, "td"))), rows.length];
    }
    const item = /^(- |\d+\. )/.exec(lines[at]);
    const part = until((line) => line !== "" && !/^(#|\||    )/.test(line) && (line === lines[at] || !/^(- |\d+\. )/.test(line)));
    const text = part.map((line) => line.trim()).join(" ").replace(/^(- |\d+\. )/, item ? (item[1] === "- " ? "• " : "$1") : "$1");
    return [element("p", {}, ...words(text)), part.length];
}

export function pageOf(text) {
    const lines = text.trim().split("\n"), blocks = [];
    for (let at = 0; at < lines.length;) {
        if (lines[at] === "") at++;
        else {
            const [node, length] = block(lines, at);
            blocks.push(node);
            at += Math.max(length, 1);
        }
    }
    return blocks;
}
