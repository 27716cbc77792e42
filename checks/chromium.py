"""Chromium without a window, and what checks/hits_page and checks/bench_page ask of a page in it."""
import base64
import os
import shutil
import time

# how many things `said` told as wrong
wrong = 0


def said(what, holds, seen=""):
    global wrong
    wrong += not holds
    print(f"  {'as it should be' if holds else 'WRONG'}: {what}{'' if holds else f': {seen}'}", flush=True)


class Browser:
    """Chromium by its driver."""

    def __init__(self):
        from selenium import webdriver
        from selenium.webdriver.chrome.options import Options
        from selenium.webdriver.chrome.service import Service

        options = Options()
        options.binary_location = shutil.which("chromium")
        # The shared memory of a container may be small, and root has no sandbox.
        flags = ["--headless=new", "--disable-gpu", "--disable-dev-shm-usage", "--hide-scrollbars"]
        for flag in flags + (["--no-sandbox"] if os.geteuid() == 0 else []):
            options.add_argument(flag)
        options.set_capability("goog:loggingPrefs", {"browser": "ALL"})
        self.driver = webdriver.Chrome(service=Service(shutil.which("chromedriver")), options=options)
        self.driver.set_page_load_timeout(1200)
        self.driver.set_script_timeout(600)
        self.did("Page.addScriptToEvaluateOnNewDocument", source=WATCH)

    def did(self, command, **words):
        return self.driver.execute_cdp_cmd(command, words)

    def look(self, size, scheme="light", media=""):
        width, height = size
        self.did("Emulation.setDeviceMetricsOverride", width=width, height=height, deviceScaleFactor=1, mobile=False)
        self.did("Emulation.setEmulatedMedia", media=media, features=[{"name": "prefers-color-scheme", "value": scheme}])

    def open(self, path):
        self.driver.get(path.as_uri())
        self.until("return window.firstCard || !document.querySelector('.rack')", "the first card")

    def ask(self, script, *words):
        return self.driver.execute_script(script, *words)

    def until(self, script, what, *words):
        """What the script gives once it is true; a page that doesn't come to it in ten minutes is wrong."""
        end = time.monotonic() + 600
        while True:
            found = self.ask(script, *words)
            if found or time.monotonic() > end:
                if not found:
                    said(what, False, "not within ten minutes")
                return found
            time.sleep(0.05)

    def faults(self):
        return [entry["message"] for entry in self.driver.get_log("browser") if entry["level"] in ("SEVERE", "WARNING")]

    def picture(self, path, **words):
        path.write_bytes(base64.b64decode(self.did("Page.captureScreenshot", **words)["data"]))

    def close(self):
        self.driver.quit()


# ---- scripts

# Notes the time at which the first card's drawing was painted.
WATCH = """
(function watch() {
  if (document.querySelector("article svg")) requestAnimationFrame(() => setTimeout(() => { window.firstCard = performance.now(); }));
  else requestAnimationFrame(watch);
})();
"""

# Texts whose contrast with what lies behind them is below 4.5: halos lie behind the text of drawings.
CONTRAST = """
const parsed = (color) => { const found = color.match(/[\\d.]+/g).map(Number); return found.length > 3 ? found : [...found, 1]; };
const light = ([r, g, b]) => { const [x, y, z] = [r, g, b].map((v) => { v /= 255; return v <= 0.04045 ? v / 12.92 : ((v + 0.055) / 1.055) ** 2.4; }); return 0.2126 * x + 0.7152 * y + 0.0722 * z; };
const ratio = (a, b) => { const [p, q] = [light(a), light(b)].sort((m, n) => n - m); return (p + 0.05) / (q + 0.05); };
const behind = (node) => { for (let at = node; at; at = at.parentElement) { const color = parsed(getComputedStyle(at).backgroundColor); if (color[3] === 1) return color; } return parsed("rgb(255,255,255)"); };
const low = [];
let looked = 0;
const judge = (text, ink, paper) => { looked++; const got = ratio(ink, paper); if (got < 4.5) low.push(`${text.slice(0, 40)} ${got.toFixed(2)} ${ink} on ${paper}`); };
const walker = document.createTreeWalker(document.body, NodeFilter.SHOW_TEXT);
for (let node; (node = walker.nextNode()); ) {
  const text = node.textContent.trim(), parent = node.parentElement;
  if (!text || parent.closest("script, style, noscript") || !parent.getClientRects().length || parent.closest(".vis")) continue;
  const style = getComputedStyle(parent), svg = parent.closest("svg");
  if (!svg) { judge(text, parsed(style.color), behind(parent)); continue; }
  const at = parent.getBoundingClientRect(), x = at.left + at.width / 2, y = at.top + at.height / 2;
  const halos = [...svg.querySelectorAll("circle.halo")].filter((halo) => { const b = halo.getBoundingClientRect(); return Math.hypot(x - b.left - b.width / 2, y - b.top - b.height / 2) < b.width / 2; });
  for (const paper of halos.length ? halos.map((halo) => parsed(getComputedStyle(halo).fill)) : [behind(svg.parentElement)]) judge(text, parsed(style.fill), paper);
}
const input = document.getElementById("text");
judge("placeholder", parsed(getComputedStyle(input, "::placeholder").color), behind(input));
return [looked, [...new Set(low)].slice(0, 8)];
"""

CARDS = """
const cards = [...document.querySelectorAll("article")];
const opened = (raw) => { const wasOpen = raw.open; raw.open = true; raw.dispatchEvent(new Event("toggle")); const text = raw.querySelector(".line").textContent; raw.open = false; return [wasOpen, text]; };
return cards.map((card) => ({
  name: card.querySelector("h3").textContent, record: +card.querySelector(".top .quiet").textContent.replace("record ", ""),
  marks: card.querySelectorAll(".drawing circle.halo").length, lines: card.querySelectorAll(".drawing line, .drawing path").length,
  texts: [...card.querySelectorAll(".drawing text")].map((text) => text.textContent), words: [...card.querySelectorAll(".words .said")].map((said) => said.textContent),
  outer: [...card.querySelectorAll(".words li")].filter((li) => li.style.paddingLeft === "4px").map((li) => li.textContent),
  data: [...card.querySelectorAll("dd")].map((dd) => dd.textContent), step: card.querySelector(".step span").textContent,
  raw: opened(card.querySelector(".raw")),
  bad: [...card.querySelectorAll("svg *")].filter((part) => [...part.attributes].some(({ value }) => value.includes("NaN"))).length,
}));
"""
