// Filters the cards, and copies symbols. Without this script the page shows all cards.
const form = document.getElementById("filters");
const shown = document.getElementById("shown");
const cards = [...document.querySelectorAll("article")];

// Shows the cards that have the chosen value in each filter. An empty value accepts every card.
function filter() {
  const wanted = [...form.querySelectorAll("select")].filter((it) => it.value !== "");
  let count = 0;
  for (const card of cards) {
    card.hidden = wanted.some((it) => card.dataset[it.name] !== it.value);
    count += card.hidden ? 0 : 1;
  }
  shown.textContent = `${count} of ${cards.length} shown`;
}

// Copies the symbol beside a button. If the browser forbids that, the symbol is selected.
async function copy(button) {
  const symbol = button.parentElement.querySelector("code");
  try {
    await navigator.clipboard.writeText(symbol.textContent);
    button.textContent = "Copied";
  } catch {
    getSelection().selectAllChildren(symbol);
    button.textContent = "Selected";
  }
  setTimeout(() => (button.textContent = "Copy"), 1500);
}

form.hidden = false;
form.addEventListener("input", filter);
form.addEventListener("submit", (event) => event.preventDefault());
form.addEventListener("reset", () => setTimeout(filter));
for (const button of document.querySelectorAll(".symbol button")) {
  button.hidden = false;
  button.addEventListener("click", () => copy(button));
}
filter();
