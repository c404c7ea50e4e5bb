// The list of sections, as it stands in the page.

import { element } from "./dom.js";

export class SectionList {
  constructor(container) {
    this.container = container;
    this.known = new Map();
    // Sections that come near what is seen get their text areas.
    this.observer = new IntersectionObserver((entries) => this.seen(entries), { rootMargin: "50% 0px" });
  }

  seen(entries) {
    for (const { isIntersecting, target } of entries) {
      if (!isIntersecting) continue;
      this.known.get(target)?.wake();
      this.observer.unobserve(target);
    }
  }

  // Shows the sections in their order. What has the focus stays, and the others move around it.
  place(sections) {
    const wanted = sections.map(({ element: article }) => article);
    const known = new Map(sections.map((section) => [section.element, section]));
    for (const child of [...this.container.children]) if (!known.has(child)) child.remove();
    for (const article of wanted) if (!this.known.has(article)) this.observer.observe(article);
    this.known = known;
    if (this.container.children.length === 0) this.container.append(...wanted);
    else order(this.container, wanted);
    sections.forEach((section, at) => section.count(at + 1, sections.length));
  }
}

function order(container, wanted) {
  const held = Math.max(0, wanted.findIndex((article) => article.contains(document.activeElement)));
  if (wanted[held].parentNode !== container) container.prepend(wanted[held]);
  for (let at = held - 1; at >= 0; at -= 1) {
    if (wanted[at].nextSibling !== wanted[at + 1]) container.insertBefore(wanted[at], wanted[at + 1]);
  }
  for (let at = held + 1; at < wanted.length; at += 1) {
    if (wanted[at - 1].nextSibling !== wanted[at]) wanted[at - 1].after(wanted[at]);
  }
}

// The colours of authors: hues as far apart as they can be, each with a class of its own.
export class Colours {
  constructor() {
    this.style = element("style");
    document.head.append(this.style);
    this.authors = [];
  }

  show(authors) {
    this.authors = [...authors].sort((one, other) => one - other);
    const hue = (at) => Math.round((360 * at) / this.authors.length + 210) % 360;
    this.style.textContent = this.authors.map((author, at) => `.by-${author} { --hue: ${hue(at)} }`).join("\n");
  }

  remove() {
    this.style.remove();
  }
}

// The marks of a section: whose its letters are, and where it has comments.
export function marksOfSection({ runs, comments }, isShown) {
  const letters = runs.filter(({ author }) => isShown(author));
  const passages = comments.filter(({ start, end }) => start < end);
  return [
    ...letters.map(({ start, end, author }) => ({ start, end, name: `by by-${author}` })),
    ...passages.map(({ start, end }) => ({ start, end, name: "commented" })),
  ];
}
