// node drive.mjs PAGE PICTURES FILE.. [-- FILE FILE ..]: opens the page in chromium, gives it the files, and prints what
// `window.facts` is of each, a line of JSON; of each pair of files after -- what `window.differences` is; and then a line
// of what the page may not do: { requests, refused, faults, elements }. The second file of a pair is chosen, dropped, or
// comes with the first, in turn; both of the first pair come by the keyboard alone. By the pipe of the debugging
// protocol: no port, no package. PICTURES is a folder for pictures at two widths, light and dark, or - for none.
//
// The browser has SECONDS for each answer, 120 where the environment has no PAGE_SECONDS. Where it does not answer, ends, or its page
// crashes, it is started anew once, which is a line of standard error, and the file, or pair, that it was at is given to it
// again. The second time that is a failure, which says what was awaited.
import { spawn } from 'node:child_process';
import { mkdtempSync, rmSync, writeFileSync } from 'node:fs';
import { tmpdir } from 'node:os';
import { join, resolve } from 'node:path';

const [page, pictures, ...words] = process.argv.slice(2), SECONDS = Number(process.env.PAGE_SECONDS ?? 120);
const end = words.includes('--') ? words.indexOf('--') : words.length, files = words.slice(0, end), paired = words.slice(end + 1);
const address = `file://${resolve(page)}`, requests = [], faults = [], elements = new Set(), choosers = [];
// /dev/shm is small in some containers, and a page whose memory does not fit into it crashes.
const OPTIONS = ['--headless=new', '--no-sandbox', '--disable-gpu', '--disable-dev-shm-usage', '--window-size=1200,900'];
const CRASHES = ['Inspector.targetCrashed', 'Target.targetCrashed', 'Inspector.detached'];
// How long the browser has to end once it is told to.
const SECONDS_TO_END = 5;
// What the page makes of a file.
const OWN = 'ARTICLE H2 H3 P DIV TABLE THEAD TBODY TR TH TD UL LI DETAILS SUMMARY BUTTON'.split(' ');
const pause = (seconds) => new Promise((next) => { setTimeout(next, seconds * 1000); });

/** What the browser, and not the page, is to blame for, as far as can be seen. */
class Unanswered extends Error {}

/** A browser with the page. What is awaited of it comes within a time, or is refused. */
class Browser {
  constructor() {
    this.profile = mkdtempSync(join(tmpdir(), 'chromium-'));
    this.waiting = new Map();
    this.sent = 0;
    this.rest = '';
    this.over = null;
    const options = [...OPTIONS, '--remote-debugging-pipe', `--user-data-dir=${this.profile}`, 'about:blank'];
    this.program = spawn('chromium', options, { stdio: ['ignore', 'ignore', 'ignore', 'pipe', 'pipe'] });
    this.ended = new Promise((take) => {
      const end = (why) => { this.refuseAll(why); take(); };
      this.program.on('exit', (status, signal) => end(`chromium ended with ${signal ?? `status ${status}`}`));
      this.program.on('error', (error) => end(`chromium did not start: ${error.message}`));
    });
    // that it has ended is said by its end
    this.program.stdio[3].on('error', () => {});
    this.program.stdio[4].on('error', () => {});
    this.program.stdio[4].on('data', (data) => this.hear(data));
  }

  hear(data) {
    const parts = (this.rest + data).split('\0');
    this.rest = parts.pop();
    for (const message of parts.map((it) => JSON.parse(it))) {
      if (message.method === 'Network.requestWillBeSent') requests.push(message.params.request.url.slice(0, 100));
      if (message.method === 'Page.fileChooserOpened') choosers.push(message.params.backendNodeId);
      if (message.method === 'Runtime.exceptionThrown') faults.push(message.params.exceptionDetails.exception?.description);
      if (CRASHES.includes(message.method)) this.refuseAll(`${message.method}: ${JSON.stringify(message.params)}`);
      const wanted = this.waiting.get(message.id);
      if (wanted) message.error ? wanted.refuse(new Error(message.error.message)) : wanted.take(message.result);
    }
  }

  /** Refuses what is awaited, and whatever will be. */
  refuseAll(why) {
    this.over ??= why;
    for (const it of this.waiting.values()) it.refuse(new Unanswered(`${it.what}: ${this.over}`));
  }

  send(method, params = {}, sessionId = undefined) {
    const id = ++this.sent, what = `${method} ${JSON.stringify(params).slice(0, 200)}`;
    if (this.over !== null) return Promise.reject(new Unanswered(`${what}: ${this.over}`));
    let limit;
    return new Promise((take, refuse) => {
      limit = setTimeout(() => refuse(new Unanswered(`${what}: no answer in ${SECONDS} seconds`)), SECONDS * 1000);
      this.waiting.set(id, { take, refuse, what });
      this.program.stdio[3].write(`${JSON.stringify({ id, method, params, sessionId })}\0`);
    }).finally(() => { clearTimeout(limit); this.waiting.delete(id); });
  }

  /** Opens the page. */
  async open() {
    await this.send('Target.setDiscoverTargets', { discover: true });
    const { targetInfos } = await this.send('Target.getTargets');
    const { targetId } = targetInfos.find((it) => it.type === 'page');
    const { sessionId } = await this.send('Target.attachToTarget', { targetId, flatten: true });
    this.own = (method, params) => this.send(method, params, sessionId);
    this.value = async (expression) => {
      const { result } = await this.own('Runtime.evaluate', { expression, returnByValue: true, awaitPromise: true });
      return result.value;
    };
    for (const it of ['Inspector', 'Network', 'Runtime', 'Page', 'DOM']) await this.own(`${it}.enable`);
    await this.own('Page.navigate', { url: address });
    await until('the page', () => this.value(`document.readyState === 'complete' && document.getElementById('files') !== null`));
    if (faults.length) throw new Error(faults.join('; '));
  }

  async endsIn(seconds) {
    let limit;
    const late = new Promise((take) => { limit = setTimeout(() => take(false), seconds * 1000); });
    const hasEnded = await Promise.race([this.ended.then(() => true), late]);
    clearTimeout(limit);
    return hasEnded;
  }

  /** Ends the browser, which is given some seconds for it, and removes its profile. */
  async end() {
    for (const signal of ['SIGTERM', 'SIGKILL']) {
      this.program.kill(signal);
      if (await this.endsIn(SECONDS_TO_END)) break;
    }
    // its other processes write there until they end
    rmSync(this.profile, { recursive: true, force: true, maxRetries: 10, retryDelay: 200 });
  }
}

async function until(what, holds) {
  for (const end = Date.now() + SECONDS * 1000; Date.now() < end;) {
    if (await holds()) return;
    await pause(0.05);
  }
  throw new Unanswered(`${what}: not in ${SECONDS} seconds; ${faults.join('; ')}`);
}

/** What the page is asked, in turn: what returns the line that is printed of it, or nothing. */
function steps() {
  const all = files.map((file) => ({ own, value }) => factsOf(own, value, file));
  for (let i = 0; i + 1 < paired.length; i += 2) {
    all.push(({ own, value }) => differencesOf(own, value, paired.slice(i, i + 2), i / 2));
  }
  if (pictures !== '-') all.push(({ own, value }) => takePictures(own, value));
  return [...all, ({ value }) => whatMayNotBe(value)];
}

/** What the page may not do. A request fails without a network too: it has to be the policy that refuses it. */
async function whatMayNotBe(value) {
  const refused = await value(`new Promise((take) => {
    addEventListener('securitypolicyviolation', (event) => take(event.effectiveDirective), { once: true });
    fetch('https://example.com/').catch(() => setTimeout(() => take('none'), 1000));
  })`);
  const others = requests.filter((it) => it !== address && it !== 'https://example.com/');
  return JSON.stringify({ requests: others, refused, faults, elements: [...elements] });
}

async function main() {
  let browser = new Browser(), isOpen = false, isAnew = false;
  const step = async (action) => {
    if (!isOpen) await browser.open();
    isOpen = true;
    return action(browser);
  };
  try {
    for (const action of steps()) {
      const line = await step(action).catch(async (why) => {
        if (!(why instanceof Unanswered) || isAnew) throw why;
        console.error(`page: the browser is started anew: ${why.message}`);
        await browser.end();
        choosers.length = 0;
        browser = new Browser();
        [isOpen, isAnew] = [false, true];
        return step(action);
      });
      if (line !== undefined) console.log(line);
    }
  } finally {
    await browser.end();
  }
}

/** Does what gives the page files, and waits until it has shown them. */
async function given(value, what, act) {
  await value(`document.body.removeAttribute('data-done')`);
  await act();
  await until(what, () => value(`document.body.dataset.done === 'yes'`));
}

async function choose(own, value, selector, ...paths) {
  const { root } = await own('DOM.getDocument');
  const { nodeId } = await own('DOM.querySelector', { nodeId: root.nodeId, selector });
  await given(value, paths.join(' '), () => own('DOM.setFileInputFiles', { files: paths.map((it) => resolve(it)), nodeId }));
}

async function drop(own, value, selector, path) {
  const { x, y } = await value(`(() => {
    const box = document.querySelector('${selector}');
    box.scrollIntoView();
    const { left, top, width, height } = box.getBoundingClientRect();
    return { x: left + width / 2, y: top + height / 2 };
  })()`);
  const data = { items: [], files: [resolve(path)], dragOperationsMask: 1 };
  await given(value, path, async () => {
    for (const type of ['dragEnter', 'dragOver', 'drop']) await own('Input.dispatchDragEvent', { type, x, y, data });
  });
}

async function press(own, key, code, text) {
  await own('Input.dispatchKeyEvent', { type: text ? 'keyDown' : 'rawKeyDown', key, code: key === ' ' ? 'Space' : key, text,
    windowsVirtualKeyCode: code });
  await own('Input.dispatchKeyEvent', { type: 'keyUp', key, windowsVirtualKeyCode: code });
}

/** Presses Tab until an element has the focus. */
async function tabTo(own, value, selector) {
  for (let presses = 0; presses < 40; presses += 1) {
    await press(own, 'Tab', 9);
    if (await value(`document.activeElement.matches('${selector}')`)) return;
  }
  throw new Error(`no key leads to ${selector}`);
}

/** Chooses a file by the keyboard: Tab leads to the input, and the space bar opens what a file is chosen in. */
async function chooseByKeys(own, value, selector, path) {
  await tabTo(own, value, selector);
  await given(value, path, async () => {
    await press(own, ' ', 32, ' ');
    await until('the choice of a file', () => choosers.length > 0);
    await own('DOM.setFileInputFiles', { files: [resolve(path)], backendNodeId: choosers.shift() });
  });
}

/** Two files and a list that is opened, without a mouse. */
async function compareByKeys(own, value, pair) {
  await own('Page.setInterceptFileChooserDialog', { enabled: true });
  await value('document.activeElement.blur()');
  await chooseByKeys(own, value, '#files', pair[0]);
  await chooseByKeys(own, value, '#other', pair[1]);
  await own('Page.setInterceptFileChooserDialog', { enabled: false });
  await value(`document.querySelectorAll('#found details').forEach((it) => { it.open = false; })`);
  await tabTo(own, value, '#found summary');
  await press(own, 'Enter', 13, '\r');
  await until('a list that a key opens', () => value(`document.activeElement.parentElement.open`));
}

async function differencesOf(own, value, pair, number) {
  if (number === 0) {
    await compareByKeys(own, value, pair);
  } else if (number % 3 === 1) {
    await choose(own, value, '#files', ...pair);
  } else {
    await choose(own, value, '#files', pair[0]);
    await (number % 3 === 2 ? drop : choose)(own, value, number % 3 === 2 ? '#beside' : '#other', pair[1]);
  }
  await noteElements(value);
  return value('JSON.stringify(window.differences)');
}

/** Opens all lists, and notes elements that the page does not make. */
async function noteElements(value) {
  await value(`document.querySelectorAll('#found details').forEach((it) => { it.open = true; })`);
  const made = await value(`[...new Set([...document.querySelectorAll('#found *')].map((it) => it.tagName))]`);
  made.filter((it) => !OWN.includes(it)).forEach((it) => elements.add(it));
}

async function factsOf(own, value, file) {
  await choose(own, value, '#files', file);
  await noteElements(value);
  const text = (name) => `document.querySelector('#found .${name}')?.textContent ?? null`;
  const said = `window.facts[0] && { ...window.facts[0], page_says: ${text('limited')}, page_accepts: ${text('accepted')} }`;
  return value(`JSON.stringify(${said}, (_, it) => typeof it === 'bigint' ? String(it) : it)`);
}

async function takePictures(own, value) {
  await value(`document.querySelectorAll('details').forEach((it, i) => { it.open = i < 2; })`);
  for (const scheme of ['light', 'dark']) {
    await own('Emulation.setEmulatedMedia', { features: [{ name: 'prefers-color-scheme', value: scheme }] });
    for (const width of [400, 1200]) {
      await own('Emulation.setDeviceMetricsOverride', { width, height: 900, deviceScaleFactor: 1, mobile: false });
      const { data } = await own('Page.captureScreenshot', { captureBeyondViewport: false });
      writeFileSync(join(pictures, `page_${width}_${scheme}.png`), Buffer.from(data, 'base64'));
      const wide = await value('document.documentElement.scrollWidth');
      if (wide > width) throw new Error(`at ${width} the page is ${wide} wide`);
    }
  }
}

await main().catch((why) => {
  console.error(`page: ${why.message}`);
  process.exitCode = 1;
});
process.exit();
