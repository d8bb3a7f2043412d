// A headless Chromium, driven over a pair of pipes by its own debugging protocol.
import { spawn } from 'node:child_process';

export class Browser {
  #next = 0;
  #waiting = new Map();
  #rest = '';
  #gone;
  events = [];

  static async start(program, profile) {
    const browser = new Browser();
    const words = ['--headless=new', '--no-sandbox', '--disable-gpu', '--disable-dev-shm-usage', '--no-first-run', '--disable-extensions', '--disable-background-networking'];
    browser.process = spawn(program, [...words, `--user-data-dir=${profile}`, '--remote-debugging-pipe', 'about:blank'], { stdio: ['ignore', 'ignore', 'ignore', 'pipe', 'pipe'] });
    browser.process.on('error', (error) => browser.#fail(error));
    browser.process.on('exit', () => browser.#fail(new Error('the browser ended')));
    browser.process.stdio[3].on('error', (error) => browser.#fail(error));
    // A letter of several bytes may come in two pieces.
    browser.process.stdio[4].setEncoding('utf8').on('data', (data) => browser.#took(data));
    return browser;
  }

  #fail(error) {
    this.#gone ??= error;
    for (const { not } of this.#waiting.values()) not(error);
    this.#waiting.clear();
  }

  #took(data) {
    const parts = (this.#rest + data).split('\0');
    this.#rest = parts.pop();
    for (const part of parts) {
      const message = JSON.parse(part);
      const waiting = this.#waiting.get(message.id);
      this.#waiting.delete(message.id);
      if (!message.id) this.events.push(message);
      else if (message.error) waiting.not(new Error(message.error.message));
      else waiting.done(message.result);
    }
  }

  send(method, params = {}, sessionId = this.session) {
    if (this.#gone) return Promise.reject(this.#gone);
    const id = (this.#next += 1);
    this.process.stdio[3].write(`${JSON.stringify({ id, method, params, sessionId })}\0`);
    return new Promise((done, not) => this.#waiting.set(id, { done, not }));
  }

  // A page, ready when its script has run.
  async open(url) {
    const { targetId } = await this.send('Target.createTarget', { url: 'about:blank' }, undefined);
    this.session = (await this.send('Target.attachToTarget', { targetId, flatten: true }, undefined)).sessionId;
    for (const domain of ['Page', 'Runtime', 'Network', 'Log', 'Accessibility']) await this.send(`${domain}.enable`);
    await this.send('Page.navigate', { url });
    await this.until(`document.documentElement?.dataset.ready === 'true'`);
  }

  // What an expression gives in the page.
  async ask(expression) {
    const { result, exceptionDetails } = await this.send('Runtime.evaluate', { expression, awaitPromise: true, returnByValue: true });
    if (exceptionDetails) throw new Error(exceptionDetails.exception?.description ?? exceptionDetails.text);
    return result.value;
  }

  async until(expression) {
    for (let i = 0; i < 1200; i += 1) {
      // While a page is being left, there is nothing to ask.
      if (await this.ask(expression).catch(() => false)) return;
      if (this.#gone) throw this.#gone;
      await new Promise((done) => setTimeout(done, 50));
    }
    throw new Error(`it never came: ${expression}; the page says: ${await this.ask(`document.body.innerText.slice(0, 600)`).catch(String)}`);
  }

  async press(key, code = key, text) {
    const keys = { Tab: 9, Enter: 13, ' ': 32 };
    const given = { key, code, windowsVirtualKeyCode: keys[key], text: text ?? (key === 'Enter' ? '\r' : undefined) };
    await this.send('Input.dispatchKeyEvent', { type: 'keyDown', ...given });
    await this.send('Input.dispatchKeyEvent', { type: 'keyUp', ...given, text: undefined });
  }

  // Drops files on the page, and waits until it has taken them. A browser may lose such an event while it is busy with another, so it is sent again until the page had one more.
  async drop(...files) {
    const data = { items: [], files, dragOperationsMask: 1 };
    const before = await this.ask(`window.hadDrops ??= (document.addEventListener('drop', () => { window.hadDrops += 1; }, true), 0)`);
    for (let i = 0; i < 5; i += 1) {
      for (const type of ['dragEnter', 'dragOver', 'drop']) await this.send('Input.dispatchDragEvent', { type, x: 60, y: 60, data });
      for (let j = 0; j < 200; j += 1) {
        if ((await this.ask('window.hadDrops')) > before) return this.until(`document.body.getAttribute('aria-busy') === 'false'`);
        await new Promise((done) => setTimeout(done, 50));
      }
    }
    throw new Error(`the page never had what was dropped: ${files.join(', ')}`);
  }

  // The roles and names that a screen reader is given.
  async roles() {
    const { nodes } = await this.send('Accessibility.getFullAXTree');
    return nodes.filter((node) => !node.ignored).map((node) => ({ role: node.role?.value, name: node.name?.value ?? '' }));
  }

  async picture() {
    const { data } = await this.send('Page.captureScreenshot', { format: 'png', captureBeyondViewport: false });
    return Buffer.from(data, 'base64');
  }

  async end() {
    if (this.#gone) {
      this.process.kill('SIGKILL');
      return;
    }
    const gone = new Promise((done) => this.process.once('exit', done));
    this.send('Browser.close', {}, undefined).catch(() => {});
    const late = setTimeout(() => this.process.kill('SIGKILL'), 5000);
    await gone;
    clearTimeout(late);
  }
}
