// Opens a page in headless Chromium, and speaks with it over a pipe, in the DevTools protocol.
import { spawn } from 'node:child_process';
import { mkdtempSync, rmSync, writeFileSync } from 'node:fs';
import { tmpdir } from 'node:os';
import { join } from 'node:path';

export const pause = milliseconds => new Promise(resolve => setTimeout(resolve, milliseconds));

export async function openPage(url, { width = 1600, height = 1000 } = {}) {
  const profile = mkdtempSync(join(tmpdir(), 'page-test-'));
  const words = ['--headless=new', '--no-sandbox', '--disable-gpu', '--hide-scrollbars', '--remote-debugging-pipe',
    `--user-data-dir=${profile}`, `--window-size=${width},${height}`, 'about:blank'];
  const stdio = ['ignore', 'ignore', 'ignore', 'pipe', 'pipe'];
  const program = spawn(process.env.CHROMIUM ?? 'chromium', words, { stdio });
  const [, , , toBrowser, fromBrowser] = program.stdio;

  let last = 0, received = '', session;
  const waiting = new Map(), faults = [], requests = [];
  const hear = message => {
    if (message.id) {
      const { resolve, reject } = waiting.get(message.id);
      waiting.delete(message.id);
      if (message.error) reject(new Error(message.error.message));
      else resolve(message.result);
    } else if (message.method === 'Runtime.exceptionThrown') {
      faults.push(message.params.exceptionDetails.exception?.description ?? message.params.exceptionDetails.text);
    } else if (message.method === 'Runtime.consoleAPICalled' && message.params.type === 'error') {
      faults.push(message.params.args.map(({ value }) => value).join(' '));
    } else if (message.method === 'Log.entryAdded' && message.params.entry.level === 'error') {
      faults.push(message.params.entry.text);
    } else if (message.method === 'Network.requestWillBeSent') {
      requests.push(message.params.request.url);
    } else if (message.method === 'Page.javascriptDialogOpening') {
      send('Page.handleJavaScriptDialog', { accept: true, promptText: message.params.defaultPrompt });
    }
  };
  fromBrowser.setEncoding('utf8');
  fromBrowser.on('data', text => {
    const messages = (received + text).split('\0');
    received = messages.pop();
    for (const message of messages) hear(JSON.parse(message));
  });
  const send = (method, params = {}) => new Promise((resolve, reject) => {
    const id = ++last;
    waiting.set(id, { resolve, reject });
    toBrowser.write(JSON.stringify({ id, method, params, sessionId: session }) + '\0');
  });

  const { targetInfos } = await send('Target.getTargets');
  const { targetId } = targetInfos.find(({ type }) => type === 'page');
  session = (await send('Target.attachToTarget', { targetId, flatten: true })).sessionId;
  for (const domain of ['Runtime', 'Page', 'Log', 'Network']) await send(`${domain}.enable`);
  await send('Emulation.setDeviceMetricsOverride', { width, height, deviceScaleFactor: 1, mobile: false });
  await send('Page.navigate', { url });

  const page = {
    faults, requests, send,
    // The value of an expression, which may be a promise.
    async value(expression) {
      const answer = await send('Runtime.evaluate', { expression, awaitPromise: true, returnByValue: true });
      if (answer.exceptionDetails) {
        throw new Error(answer.exceptionDetails.exception?.description ?? answer.exceptionDetails.text);
      }
      return answer.result.value;
    },
    // Waits until an expression holds.
    async until(expression, seconds = 30) {
      const begun = Date.now();
      while (!await page.value(expression).catch(() => false)) {
        if (Date.now() - begun > seconds * 1000) throw new Error(`not within ${seconds} s: ${expression}`);
        await pause(30);
      }
    },
    async resize(width, height) {
      await send('Emulation.setDeviceMetricsOverride', { width, height, deviceScaleFactor: 1, mobile: false });
    },
    async press(key, { code = key, ctrl = false, alt = false, text } = {}) {
      const keys = { Enter: 13, Escape: 27, Tab: 9, ArrowRight: 39, ArrowLeft: 37, ArrowUp: 38, ArrowDown: 40 };
      const virtual = keys[key] ?? key.toUpperCase().charCodeAt(0);
      const params = { key, code, windowsVirtualKeyCode: virtual, modifiers: (alt ? 1 : 0) + (ctrl ? 2 : 0), text };
      await send('Input.dispatchKeyEvent', { type: 'keyDown', ...params });
      await send('Input.dispatchKeyEvent', { type: 'keyUp', ...params });
    },
    async picture(file) {
      const { data } = await send('Page.captureScreenshot', { captureBeyondViewport: false });
      writeFileSync(file, Buffer.from(data, 'base64'));
    },
    async close() {
      await send('Browser.close').catch(() => {});
      const ended = program.exitCode !== null || new Promise(resolve => program.once('exit', resolve));
      await Promise.race([ended, pause(5000).then(() => program.kill())]);
      // Processes of the browser may still write into its folder for a moment.
      for (let attempt = 0; attempt < 20; attempt++) {
        try {
          rmSync(profile, { recursive: true, force: true });
          return;
        } catch {
          await pause(250);
        }
      }
    },
  };
  await page.until("typeof tool === 'object' && document.readyState === 'complete'");
  return page;
}
