// What one hands over: the server's files of the scenario, saved by the browser.

const LET_GO = 1000;

export function save(blob, name) {
  const link = document.createElement("a");
  link.href = URL.createObjectURL(blob);
  link.download = name;
  link.click();
  setTimeout(() => URL.revokeObjectURL(link.href), LET_GO);
}

// Asks for a file, by the button that it was asked with, which waits until it is there; `told` is to stand in it.
export async function keepAs(button, { token, net, say }, told = {}) {
  const { file } = button.dataset;
  button.disabled = true;
  say(`Saving ${file} ..`);
  try {
    const got = await fetch(`/${file}`, { method: "POST", headers: { "X-Token": token }, body: JSON.stringify(told) });
    if (!got.ok) throw new Error(await got.text() || `the server answered ${got.status}`);
    save(await got.blob(), `${net.name}-${file}`);
    say(`Saved ${net.name}-${file}.`);
  } catch (fault) {
    say(`${file} was not saved: ${fault.message}`, true);
  }
  button.disabled = false;  // eslint-disable-line require-atomic-updates
}
