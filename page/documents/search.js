// Lists the headings that have all the words which were typed. `headings` is the list of headings.js: the words of
// each, the title of its page, and where it is.

const root = document.currentScript.dataset.root;
const MOST = 40;

function search() {
    const words = document.getElementById('search').value.toLowerCase().split(/\s+/).filter((it) => it !== '');
    const has = ([heading, title]) => words.every((it) => `${heading} ${title}`.toLowerCase().includes(it));
    const found = words.length === 0 ? [] : headings.filter(has);
    const items = found.slice(0, MOST).map(([heading, title, place]) => {
        const link = document.createElement('a');
        link.href = root + place;
        link.textContent = heading === title ? title : `${heading} (${title})`;
        const item = document.createElement('li');
        item.append(link);
        return item;
    });
    if (words.length > 0 && items.length === 0) items.push('No heading has these words.');
    document.getElementById('found').replaceChildren(...items);
}

document.getElementById('search').addEventListener('input', search);
document.querySelector('form[role=search]').addEventListener('submit', (event) => {
    event.preventDefault();
    document.querySelector('#found a')?.click();
});
