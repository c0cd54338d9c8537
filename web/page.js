// Loads the page: first all modules that index.html names, a few at once. One that did not come is asked for again by the import, and if
// it does not come then either, the page is loaded again.

const MOST_TRIES = 4;
const COUNT = "zoneoffice loads";

// The front server takes eight requests of a connection at once, and ends it after a hundred. Chromium loses a request that waits for
// room on a connection while it ends: it never comes, and keeps the file from others for 90 seconds.
const AT_ONCE = 6;

async function preload() {
    const links = [...document.getElementById("modules").content.children];
    const next = async () => {
        while (links.length) {
            const link = links.shift();
            await new Promise((go) => {
                link.onload = link.onerror = go;
                document.head.append(link);
            });
        }
    };
    await Promise.all(Array.from({length: AT_ONCE}, next));
}

async function load() {
    await preload();
    const {start} = await import("./main.js");
    sessionStorage.removeItem(COUNT);
    await start();
}

function again(fault) {
    const tries = Number(sessionStorage.getItem(COUNT)) + 1;
    sessionStorage.setItem(COUNT, tries);
    if (fault instanceof TypeError && tries < MOST_TRIES) {
        setTimeout(() => location.reload(), 1000 * tries);
        return;
    }
    document.body.classList.remove("loading");
    document.getElementById("status").textContent = `The page could not be loaded: ${fault.message}. Load it again.`;
    throw fault;
}

load().catch(again);
