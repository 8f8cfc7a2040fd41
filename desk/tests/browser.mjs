// A driver for Debian's chromium over its debugging pipe: JSON messages that end in NUL, to it on fd 3 and from it on fd 4.
import { spawn } from 'node:child_process';
import { mkdtempSync, readFileSync, rmSync, writeFileSync } from 'node:fs';
import { tmpdir } from 'node:os';
import { join } from 'node:path';

const pause = (milliseconds) => new Promise((done) => setTimeout(done, milliseconds));

// Retries a question until its answer is truthy; fails with what was waited for.
export async function until(ask, what, milliseconds = 5000) {
    const end = Date.now() + milliseconds;
    for (;;) {
        const answer = await ask();
        if (answer) return answer;
        if (Date.now() > end) throw new Error(`waited ${milliseconds} ms in vain for ${what}`);
        await pause(15);
    }
}

// ---- the pipe
function connect(child) {
    const waiting = new Map();
    const listeners = [];
    let next = 1;
    let rest = Buffer.alloc(0);
    const take = (message) => {
        if (message.id === undefined) return listeners.forEach((listener) => listener(message));
        const { resolve, reject, method } = waiting.get(message.id);
        waiting.delete(message.id);
        if (message.error) reject(new Error(`${method}: ${message.error.message}`));
        else resolve(message.result);
    };
    child.stdio[4].on('data', (data) => {
        rest = Buffer.concat([rest, data]);
        for (let end = rest.indexOf(0); end >= 0; end = rest.indexOf(0)) {
            const message = rest.subarray(0, end).toString();
            rest = rest.subarray(end + 1);
            take(JSON.parse(message));
        }
    });
    child.on('exit', (status) => waiting.forEach(({ reject }) => reject(new Error(`the browser ended with ${status}`))));
    const send = (method, params = {}, sessionId = undefined) => new Promise((resolve, reject) => {
        waiting.set(next, { resolve, reject, method });
        child.stdio[3].write(`${JSON.stringify({ id: next, method, params, sessionId })}\0`);
        next += 1;
    });
    return { send, listen: (listener) => listeners.push(listener) };
}

// ---- the browser
const flags = [
    '--headless=new', '--remote-debugging-pipe', '--no-first-run', '--no-default-browser-check', '--disable-gpu', '--disable-dev-shm-usage',
    '--disable-background-networking', '--disable-component-update', '--disable-sync', '--disable-extensions', '--force-color-profile=srgb',
    '--host-resolver-rules=MAP * ~NOTFOUND', '--disable-features=Translate,MediaRouter,OptimizationHints', '--lang=en-GB',
];

export async function launch() {
    const profile = mkdtempSync(join(tmpdir(), 'desk-browser-'));
    const downloads = mkdtempSync(join(tmpdir(), 'desk-downloads-'));
    const root = process.getuid?.() === 0 ? ['--no-sandbox'] : [];
    const child = spawn(process.env.CHROMIUM || 'chromium', [...flags, ...root, `--user-data-dir=${profile}`, 'about:blank'], {
        stdio: ['ignore', 'ignore', 'ignore', 'pipe', 'pipe'],
        env: { ...process.env, LANG: 'C.UTF-8', TZ: 'UTC' },
    });
    child.stdio[3].on('error', () => {});
    const pipe = connect(child);
    await pipe.send('Browser.setDownloadBehavior', { behavior: 'allow', downloadPath: downloads, eventsEnabled: true });
    const close = async () => {
        const ended = new Promise((done) => child.once('exit', done));
        await pipe.send('Browser.close').catch(() => {});
        const killer = setTimeout(() => child.kill('SIGKILL'), 3000);
        await ended;
        clearTimeout(killer);
        for (const folder of [profile, downloads]) rmSync(folder, { recursive: true, force: true, maxRetries: 5 });
    };
    return { pipe, downloads, close, open: (url, settings) => openPage({ pipe, downloads }, url, settings) };
}

// ---- a page
// settings: before, a script to run before the page's own; width, height, mobile, scheme.
async function openPage(browser, url, settings = {}) {
    const { pipe } = browser;
    const { targetId } = await pipe.send('Target.createTarget', { url: 'about:blank' });
    const { sessionId } = await pipe.send('Target.attachToTarget', { targetId, flatten: true });
    const send = (method, params) => pipe.send(method, params, sessionId);
    const seen = { errors: [], requests: [], loads: 0 };
    pipe.listen((message) => { if (message.sessionId === sessionId) note(seen, message, send); });
    for (const domain of ['Page', 'Runtime', 'Network', 'Log', 'DOM', 'Accessibility']) await send(`${domain}.enable`);
    await send('Emulation.setFocusEmulationEnabled', { enabled: true });
    const page = { ...actions(send, browser, targetId), seen, send };
    await page.size(settings.width ?? 1440, settings.height ?? 900, settings.mobile ?? false);
    await page.media({ scheme: settings.scheme ?? 'light' });
    if (settings.before) await send('Page.addScriptToEvaluateOnNewDocument', { source: settings.before });
    await page.go(url);
    return page;
}

// Keeps what a page must not do: errors on the console or uncaught, and requests.
function note(seen, { method, params }, send) {
    if (method === 'Page.loadEventFired') seen.loads += 1;
    if (method === 'Network.requestWillBeSent') seen.requests.push(params.request.url);
    if (method === 'Runtime.exceptionThrown') {
        const { text, exception } = params.exceptionDetails;
        seen.errors.push(`${text} ${exception?.description ?? ''}`);
    }
    if (method === 'Runtime.consoleAPICalled' && ['error', 'warning', 'assert'].includes(params.type)) {
        seen.errors.push(params.args.map((argument) => argument.value ?? argument.description).join(' '));
    }
    if (method === 'Log.entryAdded' && ['error', 'warning'].includes(params.entry.level)) seen.errors.push(params.entry.text);
    if (method === 'Page.javascriptDialogOpening') send('Page.handleJavaScriptDialog', { accept: true }).catch(() => {});
}

function actions(send, browser, targetId) {
    const page = {
        ...looking(send),
        ...keys(send),
        async go(url) {
            const { errorText } = await send('Page.navigate', { url });
            if (errorText) throw new Error(`${url}: ${errorText}`);
            await until(() => page.evaluate(() => document.readyState === 'complete'), `${url} to load`);
        },
        async reload() {
            await send('Page.reload');
            await pause(50);
            await until(() => page.evaluate(() => document.readyState === 'complete').catch(() => false), 'the page to load again');
        },
        async click(selector) {
            const { x, y } = await page.evaluate(centre, selector);
            for (const type of ['mouseMoved', 'mousePressed', 'mouseReleased']) {
                await send('Input.dispatchMouseEvent', { type, x, y, button: type === 'mouseMoved' ? 'none' : 'left', clickCount: 1 });
            }
        },
        async upload(selector, path) {
            const { root } = await send('DOM.getDocument');
            const { nodeId } = await send('DOM.querySelector', { nodeId: root.nodeId, selector });
            await send('DOM.setFileInputFiles', { nodeId, files: [path] });
        },
        // The bytes of the file that an action makes the page save, and the name that it suggests.
        async saved(action) {
            const file = nextDownload(browser);
            await action();
            const { name, guid } = await file;
            // Chromium drops what a page saves beyond ten files a second.
            await pause(120);
            return { name, bytes: readFileSync(join(browser.downloads, name ?? guid)) };
        },
        close: () => browser.pipe.send('Target.closeTarget', { targetId }),
    };
    return page;
}

function nextDownload({ pipe }) {
    return new Promise((resolve, reject) => {
        const names = new Map();
        let over = false;
        const timer = setTimeout(() => { over = true; reject(new Error('waited 20 s in vain for a download')); }, 20000);
        pipe.listen(({ method, params }) => {
            if (over) return;
            if (method === 'Browser.downloadWillBegin') names.set(params.guid, params.suggestedFilename);
            if (method === 'Browser.downloadProgress' && names.has(params.guid) && params.state === 'completed') {
                over = true;
                clearTimeout(timer);
                resolve({ guid: params.guid, name: params.filePath ? params.filePath.split('/').pop() : names.get(params.guid) });
            }
        });
    });
}

// In the page: the middle of an element, scrolled into view.
function centre(selector) {
    const element = document.querySelector(selector);
    if (!element) throw new Error(`no ${selector} in the page`);
    element.scrollIntoView({ block: 'center', behavior: 'instant' });
    const { left, top, width, height } = element.getBoundingClientRect();
    if (width === 0 || height === 0) throw new Error(`${selector} is not shown`);
    return { x: left + width / 2, y: top + height / 2 };
}

// ---- what the page shows
function looking(send) {
    return {
        // Runs a function in the page, on arguments that JSON can carry.
        async evaluate(run, ...values) {
            const expression = typeof run === 'string' ? run : `(${run})(...${JSON.stringify(values)})`;
            const { result, exceptionDetails } = await send('Runtime.evaluate', { expression, awaitPromise: true, returnByValue: true, userGesture: true });
            if (exceptionDetails) throw new Error(exceptionDetails.exception?.description ?? exceptionDetails.text);
            return result.value;
        },
        size: (width, height, mobile = false) => send('Emulation.setDeviceMetricsOverride', { width, height, deviceScaleFactor: mobile ? 2 : 1, mobile }),
        media: ({ scheme, type = '' }) => send('Emulation.setEmulatedMedia', {
            media: type,
            features: scheme ? [{ name: 'prefers-color-scheme', value: scheme }] : [],
        }),
        async screenshot(path, whole = false) {
            const { data } = await send('Page.captureScreenshot', { format: 'png', captureBeyondViewport: whole });
            writeFileSync(path, Buffer.from(data, 'base64'));
        },
        async pdf(path) {
            const { data } = await send('Page.printToPDF', { preferCSSPageSize: true, printBackground: true });
            writeFileSync(path, Buffer.from(data, 'base64'));
        },
        // The controls and pictures of the accessibility tree: role, name, and the element's own text for messages.
        async accessible() {
            const { nodes } = await send('Accessibility.getFullAXTree');
            return nodes.filter((node) => !node.ignored).map((node) => ({
                role: node.role?.value ?? '', name: node.name?.value ?? '', value: node.value?.value ?? '', element: node.backendDOMNodeId,
            }));
        },
    };
}

// ---- keys
const named = {
    Enter: [13, '\r'], Tab: [9], Escape: [27], Backspace: [8], Delete: [46], ' ': [32, ' '],
    ArrowUp: [38], ArrowDown: [40], ArrowLeft: [37], ArrowRight: [39], Home: [36], End: [35], PageUp: [33], PageDown: [34],
};
const modifier = { alt: 1, control: 2, meta: 4, shift: 8 };

function keys(send) {
    const press = async (key, ...held) => {
        // Other characters have no code of their own: a code such as that of '#' would be a key, End.
        const [code, text] = named[key] ?? [/^[a-z0-9]$/i.test(key) ? key.toUpperCase().charCodeAt(0) : 0, key];
        const modifiers = held.reduce((sum, name) => sum + modifier[name], 0);
        const event = { key, code: codeOf(key), windowsVirtualKeyCode: code, modifiers, commands: modifiers === modifier.control && key === 'a' ? ['selectAll'] : [] };
        await send('Input.dispatchKeyEvent', { type: 'keyDown', ...event, text: held.some((name) => name !== 'shift') ? undefined : text });
        await send('Input.dispatchKeyEvent', { type: 'keyUp', ...event });
    };
    return {
        press,
        async type(text) {
            for (const letter of text) await press(letter === '\n' ? 'Enter' : letter);
        },
        insert: (text) => send('Input.insertText', { text }),
    };
}

function codeOf(key) {
    if (key === ' ') return 'Space';
    if (named[key]) return key;
    if (/^[a-z]$/i.test(key)) return `Key${key.toUpperCase()}`;
    return /^[0-9]$/.test(key) ? `Digit${key}` : '';
}
