"""The workbench, opened in a headless Chromium from the disk, and what a reader does with it."""
import base64
import json
import os
import sys
from pathlib import Path

TOP = Path(__file__).resolve().parents[3]
sys.path.insert(0, str(TOP / 'python'))

from tests.chromium import BROWSER, Chromium, NoAnswer  # noqa: E402,F401

class Workbench(Chromium):
    """A browser that has the workbench open."""

    def __init__(self, path):
        try:
            super().__init__()
        except NoAnswer as stop:
            print(f'the browser did not start ({stop}), and is started once more', flush=True)
            self.__exit__(NoAnswer, None, None)
            super().__init__()
        self.path = os.path.abspath(path)
        self.resize(1400, 1000)
        self.begin()

    def begin(self, state=''):
        """Opens the page anew, with this behind the #."""
        self.open('/dev/null')
        self.open(self.path + (f'#{state}' if state else ''))
        self.until('globalThis.workbench || document.getElementById("broken").textContent')
        self.settle()

    def awaited(self, expression):
        """The value that a promise of the page comes to."""
        answer = self.send('Runtime.evaluate', expression=expression, returnByValue=True, awaitPromise=True)
        if 'exceptionDetails' in answer:
            raise RuntimeError(f'{expression[:200]}: {json.dumps(answer["exceptionDetails"])[:500]}')
        return answer['result'].get('value')

    def until(self, expression):
        """Waits until an expression of the page is true. It is looked at after each change of the page."""
        try:
            self.awaited(f'({UNTIL})(() => Boolean({expression}))')
        except NoAnswer as stop:
            raise NoAnswer(f'{stop}, and this never comes to be: {expression}') from stop

    def settle(self):
        """Waits until what was handed in last is answered."""
        self.awaited('globalThis.workbench && workbench.settled')

    def drawn(self):
        """Waits until the page is laid out and drawn as it stands."""
        self.awaited('new Promise((done) => requestAnimationFrame(() => requestAnimationFrame(() => done())))')

    def event(self, method, **wanted):
        """Waits for an event with these parameters, among those that came since the last one was waited for."""
        while True:
            for place, event in enumerate(self.events):
                told = event.get('params', {})
                if event.get('method') == method and all(told.get(key) == it for key, it in wanted.items()):
                    del self.events[place]
                    return told
            self.events.append(self._next())

    def shifted(self, key, code):
        """Presses a key while the shift key is held."""
        for kind in ('keyDown', 'keyUp'):
            self.send('Input.dispatchKeyEvent', type=kind, key=key, code=key, windowsVirtualKeyCode=code, modifiers=8)

    def said(self, selector):
        """What stands in an element, as it is seen."""
        return self.value(f'document.querySelector({json.dumps(selector)}).innerText')

    def all_said(self, selector):
        return self.value(f'[...document.querySelectorAll({json.dumps(selector)})].map((it) => it.innerText)')

    def text(self, id_):
        return self.value(f'document.getElementById({json.dumps(id_)}).innerText')

    def place(self, selector):
        """The middle of an element in the window, once it was brought there and has stood still for two frames."""
        return tuple(self.awaited(f'({STANDS_STILL})({json.dumps(selector)})'))

    def mouse(self, kind, x, y, **more):
        self.send('Input.dispatchMouseEvent', type=kind, x=x, y=y, **more)

    def click(self, selector):
        x, y = self.place(selector)
        self.mouse('mousePressed', x, y, button='left', clickCount=1)
        self.mouse('mouseReleased', x, y, button='left', clickCount=1)

    def drag(self, selector, onto):
        """Drags an element onto another one, by some steps on the way."""
        (x, y), (to_x, to_y) = self.place(selector), self.place(onto)
        x, y = self.place(selector)
        to_x, to_y = self.value(
            f'(() => {{ const box = document.querySelector({json.dumps(onto)}).getBoundingClientRect();'
            'return [box.x + box.width / 2, box.y + box.height / 2]; })()')
        self.mouse('mousePressed', x, y, button='left', clickCount=1)
        for step in range(1, 6):
            self.mouse('mouseMoved', x + (to_x - x) * step / 5, y + (to_y - y) * step / 5, button='left', buttons=1)
        self.mouse('mouseReleased', to_x, to_y, button='left', clickCount=1)

    def type_into(self, selector, text):
        """Clicks into a box, marks all that it has, and types."""
        self.click(selector)
        self.value(f'document.querySelector({json.dumps(selector)}).select()')
        self.send('Input.insertText', text=text)

    def choose(self, id_, value):
        """Chooses in a list."""
        self.value(
            f'(() => {{ const it = document.getElementById({json.dumps(id_)}); it.value = {json.dumps(value)};'
            'it.dispatchEvent(new Event("change", {bubbles: true})); })()')

    def hand_in(self, selector, path):
        """Chooses a file."""
        root = self.send('DOM.getDocument')['root']['nodeId']
        node = self.send('DOM.querySelector', nodeId=root, selector=selector)['nodeId']
        self.send('DOM.setFileInputFiles', nodeId=node, files=[str(path)])

    def drop(self, selector, path):
        """Drops a file."""
        x, y = self.place(selector)
        data = {'items': [], 'files': [str(path)], 'dragOperationsMask': 1}
        for kind in ('dragEnter', 'dragOver', 'drop'):
            self.send('Input.dispatchDragEvent', type=kind, x=x, y=y, data=data)

    def call(self, words, files):
        """What the module answers in the worker: the status and the two texts."""
        return self.calls([(words, files)])[0]

    def calls(self, cases):
        """What the module answers to each of these cases: a status and two texts, or why it was stopped."""
        def packed(part):
            given = part if isinstance(part, bytes) else part.encode('utf-8', 'surrogateescape')
            return base64.b64encode(given).decode()
        handed = [[[packed(word) for word in words], [[packed(n), packed(c)] for n, c in files.items()]]
                  for words, files in cases]
        answers = self.awaited(f'({ANSWER_ALL})({json.dumps(handed)})')
        return [(status, base64.b64decode(out), base64.b64decode(err)) for status, out, err in answers]

    def picture(self, path, width, height=None, dark=False):
        """A picture of the page at a width, whole where no height is named."""
        self.resize(width, height or 1000)
        self.dark(dark)
        self.drawn()
        whole = {} if height else {'captureBeyondViewport': True}
        if not height:
            size = self.send('Page.getLayoutMetrics')['cssContentSize']
            whole['clip'] = {'x': 0, 'y': 0, 'width': width, 'height': size['height'], 'scale': 1}
        taken = self.send('Page.captureScreenshot', format='png', **whole)
        Path(path).write_bytes(base64.b64decode(taken['data']))

    def faults(self):
        """What went wrong in the page: exceptions, and what its policy kept out."""
        bad = ('Runtime.exceptionThrown', 'Log.entryAdded')
        return [event['params'] for event in self.events if event.get('method') in bad]

    def requests(self):
        """The addresses that the page asked for, besides its own."""
        sent = (event['params']['request']['url'] for event in self.events
                if event.get('method') == 'Network.requestWillBeSent')
        return [url for url in sent if not url.startswith(('file:', 'blob:', 'data:'))]


# a promise that a condition of the page is met
UNTIL = '''(condition) => new Promise((done) => {
  const observer = new MutationObserver(() => look());
  const look = () => {
    if (!condition()) return;
    observer.disconnect();
    done();
  };
  observer.observe(document, { subtree: true, childList: true, attributes: true, characterData: true });
  look();
})'''

# where the middle of an element is, once it is the same after two frames
STANDS_STILL = '''async (selector) => {
  const frame = () => new Promise((done) => requestAnimationFrame(done));
  let before = [];
  for (;;) {
    document.querySelector(selector).scrollIntoView({ block: 'center' });
    await frame();
    await frame();
    const box = document.querySelector(selector).getBoundingClientRect();
    const middle = [box.x + box.width / 2, box.y + box.height / 2];
    if (middle[0] === before[0] && middle[1] === before[1]) return middle;
    before = middle;
  }
}'''

# answers cases in the page by its own worker
ANSWER_ALL = '''async (cases) => {
  const bytes = (text) => Uint8Array.from(atob(text), (sign) => sign.charCodeAt(0));
  const packed = (all) => {
    let text = '';
    for (let i = 0; i < all.length; i += 32768) text += String.fromCharCode(...all.subarray(i, i + 32768));
    return btoa(text);
  };
  const told = [];
  for (const [words, files] of cases) {
    try {
      const answer = await workbench.engine.call(words.map(bytes), files.map((file) => file.map(bytes)));
      told.push([answer.status, packed(answer.out), packed(answer.err)]);
    } catch (stop) {
      told.push([-1, '', btoa(stop.message)]);
    }
  }
  return told;
}'''
