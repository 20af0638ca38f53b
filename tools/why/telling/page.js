// SPDX-License-Identifier: Apache-2.0
{
  const sections = [...document.querySelectorAll("details")], rows = [...document.querySelectorAll("tbody tr")];
  const texts = sections.map((section, i) => (section.textContent + " " + rows[i].textContent).toLowerCase());
  const by = id => document.getElementById(id);
  const fold = open => sections.forEach(section => { section.open = open; });

  // Shows the findings that have each of these words.
  const search = words => {
    const parts = words.toLowerCase().split(/\s+/).filter(Boolean);
    const fits = texts.map(text => parts.every(part => text.includes(part)));
    sections.forEach((section, i) => { section.hidden = rows[i].hidden = !fits[i]; });
    by("shown").textContent = parts.length ? `${fits.filter(Boolean).length} of ${sections.length} shown` : "";
  };

  // Unfolds the finding that the address names.
  const follow = () => {
    const section = by(location.hash.slice(1));
    if (section) {
      section.open = true;
      section.scrollIntoView();
    }
  };

  by("search").addEventListener("input", event => search(event.target.value));
  by("unfold").addEventListener("click", () => fold(true));
  by("fold").addEventListener("click", () => fold(false));
  window.addEventListener("hashchange", follow);
  window.addEventListener("beforeprint", () => fold(true));
  document.querySelector(".tools").hidden = sections.length === 0;
  follow();
}
