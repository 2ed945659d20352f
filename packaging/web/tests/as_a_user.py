"""Drives the workbench as a user would: types, chooses, drags, drops, stops, saves, loads, and sends the link.

    packaging/web/tests/as_a_user.py WORKBENCH.html
"""
import html
import json
import re
import sys
import tempfile
import unittest
import urllib.parse
from pathlib import Path

from opened import BROWSER, TOP, Workbench

import virage
from tests import hostile
from virage import account_pages, pages

PAGE = ''
FIVE_WAYS = (TOP / 'examples/profiles/five-ways.soc').read_text()
RUNOFF = (TOP / 'examples/rules/instant-runoff.vir').read_text()
# the example with a line in which an alternative is missing, and the number of that line
SHORT_LINE = FIVE_WAYS.replace('10: 3,2,5,4,1\n', '10: 3,2,5,4\n')
SHORT_PLACE = 12

# whether the line of a box at a place is wholly in sight in it
IN_SIGHT = '''(box, place) => {
  const mirror = document.createElement('div');
  mirror.className = 'mirror';
  box.after(mirror);
  mirror.style.width = `${box.clientWidth}px`;
  const heightOf = (text) => {
    mirror.textContent = text;
    return mirror.getBoundingClientRect().height;
  };
  const line = heightOf('x\\nx') - heightOf('x');
  const bottom = heightOf(`${box.value.slice(0, place)}x`) - box.scrollTop;
  mirror.remove();
  return bottom - line >= 0 && bottom <= box.clientHeight + line / 2;
}'''

# the least contrast of a text with what stands behind it, of all texts below an element that are seen
LEAST_CONTRAST = '''(whole) => {
  const parts = (color) => color.match(/[0-9.]+/g).map(Number);
  const light = (color) => {
    const [red, green, blue] = parts(color).slice(0, 3).map((it) => it / 255).map((it) => (
      it <= 0.03928 ? it / 12.92 : ((it + 0.055) / 1.055) ** 2.4));
    return 0.2126 * red + 0.7152 * green + 0.0722 * blue;
  };
  const ground = (it) => {
    const { backgroundColor } = getComputedStyle(it);
    return it.parentElement && parts(backgroundColor)[3] === 0 ? ground(it.parentElement) : backgroundColor;
  };
  const shown = [...whole.querySelectorAll('*')].filter((it) => !it.closest('svg') && it.checkVisibility()
    && [...it.childNodes].some((part) => part.nodeType === Node.TEXT_NODE && part.data.trim()));
  return Math.min(...shown.map((it) => {
    const [dark, bright] = [light(getComputedStyle(it).color), light(ground(it))].sort((a, b) => a - b);
    return (bright + 0.05) / (dark + 0.05);
  }));
}'''


class Uses(unittest.TestCase):
    @classmethod
    def setUpClass(cls):
        cls.page = Workbench(PAGE)
        cls.room = tempfile.TemporaryDirectory()
        cls.page.send(
            'Browser.setDownloadBehavior', behavior='allow', downloadPath=cls.room.name, eventsEnabled=True)

    @classmethod
    def tearDownClass(cls):
        cls.page.__exit__(None, None, None)
        cls.room.cleanup()

    def setUp(self):
        self.page.begin(urllib.parse.urlencode({'rule': RUNOFF, 'ballots': FIVE_WAYS}))

    def tearDown(self):
        self.assertEqual(self.page.faults(), [])
        self.assertEqual(self.page.requests(), [])

    def saved(self, name):
        path = Path(self.room.name, name)
        self.page.event('Browser.downloadProgress', state='completed')
        content = path.read_bytes()
        path.unlink()
        return content

    def file(self, name, content):
        path = Path(self.room.name, name)
        path.write_bytes(content if isinstance(content, bytes) else content.encode())
        return path

    def typed(self, id_):
        return self.page.value(f'document.getElementById("{id_}").value')

    def elected(self):
        self.page.settle()
        return self.page.value('document.querySelector("#result .elected").innerText').split('\n')[1:]

    def test_it_opens_from_the_disk_with_an_answer(self):
        self.assertTrue(self.page.value('location.protocol === "file:"'))
        self.assertIn('3', ' '.join(self.elected()))
        self.assertIn('Elected: 3 a bridge', self.page.text('outcome'))

    def test_a_rule_is_typed_and_its_fault_is_shown_where_it_stands(self):
        self.page.type_into('#rule', '# mine\nr = seq(max(bordo), elect);')
        self.page.settle()
        shown = self.page.text('rule-fault')
        self.assertIn('Line 2, column 13', shown)
        self.assertIn('Is borda meant?', shown)
        self.assertIn('Line 2 of the rule: This word is not of the language', self.page.text('bar'))
        self.assertIn('This word is not of the language', shown)
        lines = shown.split('\n')
        at = next(i for i, line in enumerate(lines) if line.startswith('r = '))
        self.assertEqual(lines[at + 1].index('^'), lines[at].index('bordo'))
        self.assertTrue(self.page.value('document.getElementById("live").classList.contains("stale")'))
        self.assertIn('a bridge', ' '.join(self.elected()), 'the last good answer stays')
        self.page.click('#rule-fault button')
        self.assertEqual(self.page.value('document.getElementById("rule").selectionStart'), 7 + 12)
        self.page.type_into('#rule', 'r = seq(max(borda), elect);')
        self.page.settle()
        self.assertEqual(self.page.text('rule-fault'), '')
        self.assertIn('a school', ' '.join(self.elected()))

    def test_ballots_are_typed_and_their_fault_is_shown_by_its_line(self):
        self.page.type_into('#ballots', '# NUMBER ALTERNATIVES: 3\n2: 1,2,3\n1: 2,3\n')
        self.page.settle()
        self.assertIn('Line 3: An alternative is missing', self.page.text('ballots-fault'))
        self.page.type_into('#rule', 'r = elekt;')
        self.page.settle()
        self.assertIn('Line 3', self.page.text('ballots-fault'), 'both faults are shown')
        self.assertIn('Line 1, column 5', self.page.text('rule-fault'))

    def test_a_rule_of_the_cookbook_is_chosen(self):
        options = self.page.value('[...document.getElementById("cookbook").options].map((it) => it.text)')
        self.assertEqual(len(options), 1 + len(list((TOP / 'examples/rules').glob('*.vir'))))
        index = next(i for i, text in enumerate(options) if text.startswith('baldwin'))
        self.page.choose('cookbook', str(index - 1))
        self.page.settle()
        self.assertIn('Baldwin, 1926', self.page.text('about'))
        self.assertIn('a pool', ' '.join(self.elected()))

    def test_each_property_of_a_rule_of_the_cookbook_is_always_or_not_always_true(self):
        counts = {'derivation': 0, 'law': 0, 'case': 0}
        for path in sorted((TOP / 'examples/rules').glob('*.vir')):
            self.page.choose('cookbook', self.index_of(path.stem))
            self.page.settle()
            for how in self.page.value('workbench.findings.all.map((it) => it.by)'):
                counts[how] += 1
            self.assertEqual(self.count('#findings .finding'), 18, path.name)
            self.assertEqual(self.count('#findings .open'), 0, path.name)
        self.assertEqual(counts, {'derivation': 83, 'law': 39, 'case': 184})
        self.page.type_into('#rule', 'r = max(borda);')
        self.page.settle()
        self.assertGreater(self.count('#findings .open'), 0)
        self.assertEqual(self.count('#findings .never'), 0)
        asked = self.page.said('.finding[data-property=mono] .question')
        self.assertEqual(asked, 'Does a winner that gets more support still win?')

    def count(self, selector):
        return self.page.value(f'document.querySelectorAll({json.dumps(selector)}).length')

    def unfold(self, property_):
        self.page.click(f'.finding[data-property="{property_}"] summary')
        self.page.until(f'document.querySelector(".finding[data-property=\'{property_}\'] details > div").firstChild')

    def test_a_false_property_has_its_case(self):
        self.unfold('mono')
        case = '.finding[data-property=mono] .case'
        self.page.until(f'!document.querySelector("{case}").innerText.includes("…")')
        said = self.page.said(case)
        self.assertIn('On these ballots the rule elects 1, 2, 3.', said)
        self.assertIn('When 1 gets more support from the marked voters, it elects 2; rejects 1, 3.', said)
        self.assertEqual(self.page.all_said(f'{case} .raised'), ['1 ▲', '1 ▲'])
        self.page.click(f'{case} > div:last-child button')
        self.page.settle()
        self.assertIn('Elected: 2.', self.page.text('outcome'))

    def test_ballots_are_put_in_order_by_dragging(self):
        self.page.choose('profiles', '1')
        self.page.settle()
        before = self.typed('ballots')
        self.page.drag('[data-key="chip-0-3"]', '[data-key="chip-0-1"]')
        self.page.settle()
        after = self.typed('ballots')
        self.assertIn('4: 1,2,3', before)
        self.assertIn('4: 3,1,2', after)

    def test_ballots_are_put_in_order_by_keys(self):
        self.page.value('document.querySelector("[data-key=\'chip-0-1\']").focus()')
        self.page.shifted('ArrowRight', 39)
        self.page.shifted('ArrowRight', 39)
        self.page.settle()
        self.assertIn('18: 4,5,1,3,2', self.typed('ballots'))
        self.assertEqual(self.page.value('document.activeElement.dataset.key'), 'chip-0-1', 'the mark stays on it')
        self.assertEqual(self.page.value('document.getElementById("said").textContent'),
                         '1 a library is now at place 3 of ballot 1.')
        self.page.shifted('End', 35)
        self.page.settle()
        self.assertIn('18: 4,5,3,2,1', self.typed('ballots'))

    def test_each_ballot_is_one_stop_of_the_tabulator_key(self):
        key = 'document.activeElement.dataset.key'
        self.page.value('document.querySelector("[data-key=\'chip-0-1\']").focus()')
        self.page.press('Tab', 9)
        self.assertEqual(self.page.value(key), 'chip-1-2')
        self.page.press('ArrowRight', 39)
        self.assertEqual(self.page.value(key), 'chip-1-5')
        self.page.press('ArrowDown', 40)
        self.assertEqual(self.page.value(key), 'chip-2-2')
        self.page.press('ArrowLeft', 37)
        self.page.press('ArrowLeft', 37)
        self.assertEqual(self.page.value(key), 'count-2')
        self.page.press('Tab', 9)
        self.assertEqual(self.page.value(key), 'chip-3-4')
        self.assertIn('10: 3,2,5,4,1', self.typed('ballots'), 'nothing was moved')

    def test_the_first_stop_leads_to_the_answer(self):
        self.page.value('document.activeElement.blur()')
        self.page.press('Tab', 9)
        self.assertEqual(self.page.value('document.activeElement.innerText'), 'To the answer')
        self.page.press('Enter', 13)
        self.assertEqual(self.page.value('document.activeElement.id'), 'result-title')

    def test_ballots_and_alternatives_are_added_and_named(self):
        self.page.choose('profiles', '1')
        self.page.settle()
        for words in ('Add a ballot', 'Add an alternative'):
            self.page.click(f'[data-key="{words}"]')
        self.page.value('''(() => { const it = document.querySelector("[data-key='name-4']"); it.value = "water";
                           it.dispatchEvent(new Event("change")); })()''')
        self.page.settle()
        text = self.typed('ballots')
        self.assertIn('# NUMBER ALTERNATIVES: 4\n# ALTERNATIVE NAME 4: water\n', text)
        self.assertIn('1: 1,2,3,4\n', text)
        self.assertEqual(self.page.text('ballots-fault'), '')

    def test_files_are_chosen_dropped_and_saved(self):
        board = TOP / 'examples/profiles/board.soc'
        self.page.hand_in('#ballots-file', board)
        self.page.until('document.getElementById("ballots").value.includes("Ito")')
        self.page.settle()
        self.page.click('#ballots-save')
        self.assertEqual(self.saved('ballots.soc'), board.read_bytes())
        self.page.drop('#ballots', TOP / 'examples/profiles/tied.soc')
        self.page.until('document.getElementById("ballots").value.includes("5: 4,3,1,2")')
        self.page.drop('#rule', TOP / 'examples/rules/copeland.vir')
        self.page.until('document.getElementById("rule").value.includes("copeland-rule")')
        self.page.settle()
        self.page.click('#rule-save')
        self.assertEqual(self.saved('rule.vir'), (TOP / 'examples/rules/copeland.vir').read_bytes())

    def test_bytes_that_are_no_text_are_read_as_they_are(self):
        path = self.file('odd.soc', b'# NUMBER ALTERNATIVES: 2\n# ALTERNATIVE NAME 1: \xff\xfe\n3: 2,1\n')
        self.page.hand_in('#ballots-file', path)
        self.page.until('document.getElementById("ballots-note").textContent.includes("odd.soc")')
        self.assertIn('2', self.elected())

    def test_the_link_keeps_the_state(self):
        self.page.type_into('#rule', 'r = seq(max(borda), elect); # é & = #')
        self.page.settle()
        address = self.page.value('location.href')
        self.page.begin(address.partition('#')[2])
        self.assertEqual(self.typed('rule'), 'r = seq(max(borda), elect); # é & = #')
        self.assertIn('a school', ' '.join(self.elected()))
        self.page.value('location.hash = "rule=r%3Ddefer%3B&ballots=%23NUMBER+ALTERNATIVES%3A1"')
        self.page.until('document.getElementById("rule").value === "r=defer;"')
        self.page.settle()
        self.assertIn('Nobody is elected', self.page.text('outcome'))

    def test_a_derivation_is_unfolded_and_its_words_are_explained(self):
        self.unfold('el')
        nodes = self.page.all_said('.finding[data-property=el] .node')
        self.assertEqual(nodes[0], 'el of seq(loop(1,min(plurality)),elect) by el-seq-second')
        self.page.click('.finding[data-property="el"] .by a')
        self.page.until('document.activeElement.id === "rule-el-seq-second"')
        self.assertIn('Why: ', self.page.value('document.activeElement.innerText'))

    def test_a_counterexample_is_looked_for_and_loaded(self):
        rule = 'r = seq(until(1, min(plurality)), elect);'
        self.page.type_into('#rule', rule)
        self.page.settle()
        self.unfold('mono')
        self.page.click('.finding[data-property="mono"] .look')
        self.page.until('document.querySelector(".finding[data-property=mono] .case")')
        found = self.page.value('workbench.findings.cases.get("mono")')
        files = {'r': rule, 'a': found['first'], 'b': found['second']}
        words = ['refute', 'r', 'mono', 'a', 'b', str(found['alternative'])]
        self.assertEqual(self.page.call(words, files)[:2], (0, b'violated\n'))
        self.page.click('.finding[data-property=mono] .case button')
        self.page.settle()
        self.assertEqual(self.typed('ballots'), found['first'])
        self.assertEqual(self.count('.finding[data-property=mono] .case'), 1, 'it stays')

    def test_cases_are_looked_for_against_all_that_is_open(self):
        self.page.type_into('#rule', 'r = seq(max(borda), max(plurality));')
        self.page.settle()
        before = self.count('#findings .open')
        self.page.click('.look-all')
        self.page.until('document.getElementById("said").textContent.startsWith("The search is done")')
        self.assertLess(self.count('#findings .open'), before)
        self.assertEqual(self.count('#findings .finding'), 18)

    def test_a_search_is_stopped(self):
        self.page.type_into('#rule', 'r = seq(plurality, seq(defer, elect));')
        self.page.settle()
        self.unfold('mono')
        place = '.finding[data-property=mono] .search'
        self.page.click('.finding[data-property="mono"] .look')
        self.page.until(f'document.querySelector("{place}").innerText.includes("None of")')
        self.assertIn('proves nothing', self.page.said(place))
        self.page.value(f'(() => {{ const press = () => document.querySelector("{place} button").click();'
                        'press(); press(); })()')
        self.page.until(f'document.querySelector("{place}").innerText.includes("The search ended: stopped")')

    def test_a_certificate_is_saved_and_checked(self):
        self.page.choose('cookbook', self.index_of('copeland'))
        self.page.settle()
        self.page.choose('holding', 'mono')
        self.page.click('#certificate-save')
        content = self.saved('mono.cert')
        self.assertEqual(content, (TOP / 'examples/certificates/copeland-mono.cert').read_bytes())
        self.page.hand_in('#certificate-file', self.file('mine.cert', content))
        self.page.until('document.getElementById("verdict").innerText.includes("Accepted")')
        other = content.replace(b'property mono', b'property cc')
        self.page.hand_in('#certificate-file', self.file('mine.cert', other))
        self.page.until('document.getElementById("verdict").innerText.includes("Node 0")')
        self.page.hand_in('#certificate-file', self.file('mine.cert', content.replace(b'mono-', b'mino-')))
        self.page.until('document.getElementById("verdict").innerText.includes("No rule of derivation")')

    def index_of(self, name):
        return str(self.page.value(f'KNOWN.cookbook.findIndex((it) => it.name === "{name}")'))

    def test_a_rule_is_simplified(self):
        self.page.choose('cookbook', self.index_of('plurality-then-elect'))
        self.page.settle()
        self.assertIn('plurality', self.page.text('simple'))
        self.page.click('#simple button')
        self.page.settle()
        self.assertEqual(self.typed('rule'), 'simple = plurality;\n')

    def large(self, lines, alternatives):
        """Ballots of which counting takes long."""
        order = list(range(1, alternatives + 1))
        text = [f'# NUMBER ALTERNATIVES: {alternatives}\n']
        for i in range(lines):
            turned = order[i % alternatives:] + order[:i % alternatives]
            text.append(f'{i % 7 + 1}: {",".join(map(str, turned))}\n')
        return self.file('large.soc', ''.join(text))

    def test_a_long_count_is_stopped_and_typing_never_waits(self):
        many = 'r = ' + 'seq(' * 60 + 'loop(1,min(borda))' + ',loop(1,drop(1)))' * 60 + ';'
        self.page.type_into('#rule', 'r = seq(loop(1, min(copeland)), elect);')
        self.page.settle()
        self.page.hand_in('#ballots-file', self.large(60000, 200))
        self.page.until('!document.getElementById("stop").hidden')
        self.page.type_into('#rule', many)
        self.assertEqual(self.typed('rule'), many)
        self.assertTrue(self.page.value('workbench.running'), 'it is still counted')
        self.page.until('!document.getElementById("stop").hidden')
        self.page.click('#stop')
        self.page.until('document.getElementById("state").textContent.includes("stopped by you")')
        self.page.click('#ballots-note button')
        self.page.type_into('#rule', 'r = elect;')
        self.page.type_into('#ballots', '# NUMBER ALTERNATIVES: 1\n')
        self.page.settle()
        self.assertEqual(self.elected(), ['1'])

    def test_hostile_names_do_no_harm(self):
        names = [name if isinstance(name, bytes) else name.encode() for name in hostile.NAMES]
        said = [b'# ALTERNATIVE NAME %d: %s\n' % (i, name.replace(b'\n', b' ')) for i, name in enumerate(names, 1)]
        order = b','.join(b'%d' % i for i in range(1, len(names) + 1))
        text = b'# NUMBER ALTERNATIVES: %d\n%s3: %s\n' % (len(names), b''.join(said), order)
        self.page.hand_in('#ballots-file', self.file('hostile.soc', text))
        self.page.until('document.getElementById("ballots-note").textContent.includes("hostile.soc")')
        self.page.settle()
        text = text.decode('utf-8', 'ignore').encode()
        self.page.hand_in('#ballots-file', self.file('hostile.soc', text))
        self.page.until('document.getElementById("ballots").value.includes("taken")')
        self.page.settle()
        self.assertEqual(self.page.value('document.title'), 'A workbench for voting rules')
        strangers = self.page.value('document.querySelectorAll("main script, main img, main link, main style").length')
        self.assertEqual(strangers, 0)
        self.assertIn('[U+202E]', self.page.text('result'))

    def test_the_policy_forbids_the_network(self):
        refused = self.page.awaited('fetch("http://127.0.0.1:9/").then(() => "sent", (stop) => String(stop))')
        self.assertIn('TypeError', refused)
        told = self.page.faults()
        self.assertTrue(any('Content Security Policy' in str(fault) for fault in told))
        self.page.value('(() => { const it = document.createElement("script"); it.textContent = "document.title = 1";'
                        'document.body.append(it); })()')
        self.assertEqual(self.page.value('document.title'), 'A workbench for voting rules')
        self.page.events.clear()

    def test_a_browser_without_64_bit_memories_is_told_so(self):
        script = 'WebAssembly.validate = () => false;'
        added = self.page.send('Page.addScriptToEvaluateOnNewDocument', source=script)
        self.page.begin()
        self.assertIn('64-bit memories', self.page.text('broken'))
        self.page.send('Page.removeScriptToEvaluateOnNewDocument', identifier=added['identifier'])

    def test_the_definition_is_in_sight_on_a_phone(self):
        self.page.resize(390, 844)
        for path in sorted((TOP / 'examples/rules').glob('*.vir')):
            self.page.choose('cookbook', self.index_of(path.stem))
            self.page.settle()
            box = 'document.getElementById("rule")'
            self.assertTrue(self.page.value(f'({IN_SIGHT})({box}, lastDefinition({box}.value))'), path.stem)
        self.page.resize(1400, 1000)

    def test_a_fault_of_the_ballots_is_in_the_bar_and_in_sight(self):
        for width in (1280, 390):
            self.page.resize(width, 844)
            self.page.begin(urllib.parse.urlencode({'rule': RUNOFF, 'ballots': SHORT_LINE}))
            told = f'Line {SHORT_PLACE} of the ballots: An alternative is missing'
            self.assertIn(told, self.page.text('bar'))
            at_line = SHORT_LINE.index('10: 3,2,5,4\n')
            box = 'document.getElementById("ballots")'
            self.assertTrue(self.page.value(f'({IN_SIGHT})({box}, {at_line})'), width)
            self.page.click('#ballots-told button')
            self.assertEqual(self.page.value('document.activeElement.id'), 'ballots')
            self.assertEqual(self.page.value(f'{box}.selectionStart'), at_line)
        self.page.resize(1400, 1000)

    def test_before_the_first_answer_there_is_none(self):
        seen = ('[...document.querySelectorAll("#live, #certificate-part, #skip, #jump")]'
                '.filter((it) => it.checkVisibility()).length')
        self.page.begin(urllib.parse.urlencode({'rule': 'r = elekt;', 'ballots': FIVE_WAYS}))
        self.assertIn('No answer yet.', self.page.text('bar'))
        self.assertEqual(self.page.value(seen), 0)
        self.page.type_into('#rule', 'r = elect;')
        self.page.settle()
        self.assertNotIn('No answer yet', self.page.text('bar'))
        self.assertGreater(self.page.value(seen), 1)
        self.page.type_into('#rule', 'r = elekt;')
        self.page.settle()
        self.assertIn('Below is the last good answer.', self.page.text('bar'))

    def test_the_last_good_answer_can_be_read(self):
        self.page.type_into('#rule', 'r = elekt;')
        self.page.settle()
        self.page.value('document.querySelectorAll("#live details").forEach((it) => it.open = true)')
        for dark in (False, True):
            self.page.dark(dark)
            least = self.page.value(f'({LEAST_CONTRAST})(document.getElementById("live"))')
            self.assertGreaterEqual(least, 4.5, f'dark: {dark}')
        self.page.dark(False)

    def facts(self, rule, ballots):
        self.page.begin(urllib.parse.urlencode({'rule': rule, 'ballots': ballots}))
        return self.page.all_said('#facts p')

    def test_facts_are_joined_to_the_result(self):
        duel = '5 a pool wins against each other alternative in a duel (it is the Condorcet winner)'
        three = '# NUMBER ALTERNATIVES: 3\n'
        together = "3 are elected together: this rule doesn't choose among them."
        self.assertEqual(self.facts(RUNOFF, FIVE_WAYS), [f"{duel}, and isn't elected: it goes in round 1."])
        self.assertEqual(self.facts('r = plurality;', FIVE_WAYS), [f"{duel}, and isn't elected."])
        self.assertEqual(self.facts('r = defer;', FIVE_WAYS), [f"{duel}, and isn't elected but deferred."])
        self.assertEqual(self.facts('r = seq(max(copeland), elect);', FIVE_WAYS), [])
        self.assertEqual(self.facts('r = elect;', three + '1: 1,2,3\n'), [
            together, f"1{duel[8:]}, and isn't elected alone."])
        self.assertEqual(self.facts('r = elect;', three), [
            'Nobody voted, so that no opinion stands behind this result.', together])

    def test_of_many_the_first_ten_are_shown(self):
        order = ','.join(map(str, range(24, 0, -1)))
        self.facts('r = seq(max(borda), elect);', f'# NUMBER ALTERNATIVES: 24\n3: {order}\n')
        self.assertEqual(self.page.said('#result .rejected summary'), 'and 13 more')
        self.assertEqual(self.count('#result .rejected > ul > li'), 10)
        scores = '#rounds .wide:has(.scores)'
        self.assertEqual(self.page.said(f'{scores} > details > summary'), 'and 14 more')
        shown = self.page.all_said(f'{scores} > table tbody th')
        self.assertEqual(shown, [str(one) for one in range(24, 14, -1)], 'by their scores')

    def test_a_name_from_right_to_left_stands_behind_its_number(self):
        name = '\u05e9\u05dc\u05d5\u05dd'
        self.facts('r = elect;', f'# NUMBER ALTERNATIVES: 1\n# ALTERNATIVE NAME 1: {name}\n2: 1\n')
        self.assertEqual(self.page.said('#result .elected li'), f'1 {name}')
        right_of = ('(() => { const box = (it) => document.querySelector(`#result .elected ${it}`)'
                    '.getBoundingClientRect(); return box(".name").left - box(".number").right; })()')
        self.assertGreater(self.page.value(right_of), 2, 'with a blank between them')

    def test_no_width_is_too_small(self):
        for width in (320, 800, 1400):
            self.page.resize(width)
            self.assertLessEqual(self.page.value('document.documentElement.scrollWidth'), width)
        self.page.resize(1400, 1000)

    def test_it_is_printed_with_its_texts(self):
        self.page.value('workbench.mirror()')
        self.page.send('Emulation.setEmulatedMedia', media='print')
        seen = self.page.value('[...document.querySelectorAll("textarea, button, select")].filter('
                               '(it) => it.checkVisibility()).length')
        self.assertEqual(seen, 0)
        self.assertIn('instant-runoff =', self.page.text('rule-printed'))
        self.page.send('Emulation.setEmulatedMedia', media='')

    def test_each_control_has_a_name(self):
        nodes = self.page.send('Accessibility.getFullAXTree')['nodes']
        roles = ('button', 'textbox', 'combobox', 'link', 'DisclosureTriangle', 'region')
        nameless = [node['role']['value'] for node in nodes
                    if not node.get('ignored') and node['role']['value'] in roles
                    and not node.get('name', {}).get('value')]
        self.assertEqual(nameless, [])
        regions = [node['name']['value'] for node in nodes if node['role']['value'] == 'region']
        self.assertIn('Who is elected', regions)

    def test_findings_are_drawn_as_on_the_page_of_a_report(self):
        for path in sorted((TOP / 'examples/rules').glob('*.vir')):
            rule = path.read_text()
            status, out, _ = self.page.call(['report', 'r', 'p'], {'r': rule, 'p': FIVE_WAYS})
            self.assertEqual(status, 0)
            report = virage.read_report(out)
            drawn = self.page.value(
                f'readReport({json.dumps(out.decode())}).findings.map((it) => element("div", {{}}, '
                'it.holds ? drawDerivation(it) : drawReasons(it)).textContent)')
            self.assertEqual(drawn, [text_of(pages.why(it)) for it in report.findings.values()], path.stem)

    def test_accounts_are_drawn_as_on_the_page_of_a_report(self):
        for path in sorted((TOP / 'examples/expected').glob('explain.*')):
            told = virage.read_explanation(path.read_bytes())
            drawn = self.page.value(
                f'(() => {{ const text = {json.dumps(path.read_text())}; const lines = new Lines(text);'
                'const term = readTerm(lines.after("rule ")); const { names } = readHead(lines);'
                'return element("div", {}, drawSteps(readVisits(text), term, names)).textContent; })()')
            self.assertEqual(drawn, text_of(account_pages.steps(told)), path.name)
        for path in sorted((TOP / 'examples/expected').glob('pairs.*')):
            told = virage.read_pairs(path.read_bytes())
            drawn = self.page.value(
                f'element("div", {{}}, drawPairs(readPairs({json.dumps(path.read_text())}))).textContent')
            self.assertEqual(drawn, text_of(account_pages.duels(told)), path.name)

    def test_facts_are_said_as_on_the_page_of_a_report(self):
        for path in sorted((TOP / 'examples/rules').glob('*.vir')):
            for profile in sorted((TOP / 'examples/profiles').glob('*.soc')):
                files = {'p': profile.read_text(), 'r': path.read_text()}
                report, told = (self.page.call([word, 'r', 'p'], files)[1] for word in ('report', 'explain'))
                pairs = self.page.call(['pairs', 'p'], {'p': files['p']})[1]
                read = virage.read_report(report)
                said = account_pages.facts(
                    read.result, read.voters, virage.read_explanation(told), virage.read_pairs(pairs))
                given = ', '.join(json.dumps(text.decode()) for text in (report, pairs, told))
                drawn = self.page.value(
                    '((first, second, third) => { const report = readReport(first); return drawFacts(report, '
                    'readPairs(second), accountOf(readVisits(third), report.term)).map((it) => it.textContent)'
                    f'.join(""); }})({given})')
                self.assertEqual(drawn, text_of(said), (path.stem, profile.stem))


def text_of(parts):
    """What parts of a page say, without the markup."""
    return html.unescape(re.sub('<[^>]*>', '', ''.join(parts)))


if __name__ == '__main__':
    PAGE = sys.argv.pop(1)
    unittest.main(verbosity=1)
