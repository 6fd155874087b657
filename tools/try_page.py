"""Tries the script of the page in a headless Chromium, where there is one: clicks, keys, filters, links and states."""
import json
import os
import re
import shutil
import subprocess
import tempfile

from results import Result
from tries import ROOT
import view

BROWSERS = ('chromium', 'chromium-browser', 'google-chrome', 'chrome')
HEAD = '''<script>
const errors_of_page = [];
addEventListener('error', event => errors_of_page.push(event.message));
</script>'''
TAIL = '''<script>
(async () => {
  const wrong = [];
  let counted = 0;
  const same = (what, got, wanted) => { counted++; if (JSON.stringify(got) !== JSON.stringify(wanted)) wrong.push(what + ': ' + JSON.stringify(got) + ' in place of ' + JSON.stringify(wanted)); };
  const later = () => new Promise(done => setTimeout(done, 40));
  const entries = () => [...document.querySelectorAll('#list a')].map(link => link.getAttribute('href')).filter(to => /^#(row|went|net|note)-/.test(to));
  const marks = () => [...document.querySelectorAll('.mark')].filter(mark => mark.style.display !== 'none').length;
  const chosen = () => document.querySelector('#list a.chosen')?.getAttribute('href') || '';
  const key = name => document.body.dispatchEvent(new KeyboardEvent('keydown', { key: name, bubbles: true }));
  const find = words => { const field = document.getElementById('find'); field.value = words; field.dispatchEvent(new Event('input')); };
  const near = (a, b, far) => Math.abs(a - b) <= far;
  try { await (async () => { %s })(); } catch (error) { wrong.push(String(error)); }
  const result = document.createElement('pre');
  result.id = 'result';
  result.textContent = JSON.stringify({ counted, wrong: wrong.concat(errors_of_page) });
  document.body.append(result);
})();
</script></body>'''
EXAMPLE = '''
  same('entries', entries(), ['#row-0-0', '#row-0-1', '#row-0-2', '#net-0-0', '#note-0-0']);
  same('marks', marks(), 3);
  // the place of a row is the gap, and the gap is the report's
  [[0, 0.15], [2, 0.175]].forEach(([k, has]) => same('gap ' + k, near(where(data.states[0].rows[k]).far, has, 0.001), true));
  same('a crossing', where(data.states[0].rows[1]).far, 0);
  follow('#row-0-0'); await later();
  same('chosen', chosen(), '#row-0-0');
  same('words at the gap', document.querySelector('.gap-words').textContent.startsWith('needs 0.2 mm, has 0.15 mm'), true);
  same('seen near', seen[2] < 20, true);
  same('a layer steps back', document.querySelectorAll('.dim').length, 1);
  key('Escape');
  same('whole board', near(box[2], data.box[2], 0), true);
  // the whole board stands beside the list of layers, from the back too
  const beside = () => {
    const [x, y, w] = data.box, to = at => svg.getBoundingClientRect().left + svg.clientWidth * (back ? 1 - (at - seen[0]) / seen[2] : (at - seen[0]) / seen[2]);
    return [Math.min(to(x), to(x + w)) >= svg.getBoundingClientRect().left - 1, Math.max(to(x), to(x + w)) <= document.getElementById('layers').getBoundingClientRect().left];
  };
  same('beside the layers', [panel.open, beside()], [true, [true, true]]);
  key('f'); same('beside the layers from the back', beside(), [true, true]); key('f');
  panel.open = false; await later(); same('without the layers', near(seen[0] + seen[2] / 2, data.box[0] + data.box[2] / 2, 1e-9), true);
  panel.open = true; await later();
  document.querySelector('#list a').click(); await later();
  same('gone to again', seen[2] < 20, true);
  // a resize changes what is shown and not what is wanted
  const before = seen.slice(), wide = document.getElementById('view');
  wide.style.flex = 'none'; wide.style.width = '200px'; dispatchEvent(new Event('resize'));
  same('narrow', near(seen[2], before[2], 1e-9), false);
  wide.style.flex = ''; wide.style.width = ''; dispatchEvent(new Event('resize'));
  same('wide again', seen.map((n, k) => near(n, before[k], 1e-9)), [true, true, true, true]);
  key('j'); await later(); same('next', chosen(), '#row-0-1');
  key('k'); await later(); same('back', chosen(), '#row-0-0');
  location.hash = '#row-0-9'; await later(); same('a link to no row', chosen(), '');
  location.hash = '#row-7-0'; await later(); location.hash = '#frob'; await later();
  find('short'); same('filtered', [entries(), marks()], [['#row-0-1'], 1]);
  find('gnd'); same('by net', entries().length, 4);
  find('rev'); same('by note', entries(), ['#note-0-0']);
  find(''); same('all again', [entries().length, marks()], [5, 3]);
  const button = name => [...document.querySelectorAll('#kinds button')].find(one => one.textContent.startsWith(name));
  button('clearance').click(); same('by kind', entries().filter(to => to.startsWith('#row')), ['#row-0-0', '#row-0-2']); button('clearance').click();
  button('by shortfall').click(); same('by shortfall', entries().slice(0, 3), ['#row-0-0', '#row-0-2', '#row-0-1']); button('by shortfall').click();
  follow('#net-0-0'); await later(); same('links of a net', document.querySelectorAll('.link.chosen').length, 2);
  same('no farther than the board', Math.max(box[2], box[3]) <= 1.001 * Math.max(data.box[2], data.box[3]), true);
  follow('#note-0-0'); await later(); same('a note', document.querySelectorAll('#picked > g').length, 1);
  same('copper', copper_at(110.9125, 106.25), ['Via [GND] on F.Cu..B.Cu, 0.8 mm across', 'Zone [GND] on B.Cu']);
  same('a track', copper_at(114, 104).filter(name => name.startsWith('Track')), ['Track [GND] on F.Cu, 0.25 mm wide']);
  const mark = document.querySelector('.mark path'); mark.dispatchEvent(new MouseEvent('click', { bubbles: true })); await later();
  same('a mark', chosen(), '#row-0-0');
  // a wheel moves the picture at once, and draws it anew when it rests
  const wheel = seen[2]; frame.dispatchEvent(new WheelEvent('wheel', { deltaY: 100, clientX: 900, clientY: 400, bubbles: true, cancelable: true }));
  same('moved', [svg.style.transform !== '', seen[2] > wheel], [true, true]);
  await new Promise(done => setTimeout(done, 300));
  same('drawn anew', [svg.style.transform, near(drawn[2], seen[2], 1e-9), svg.getAttribute('viewBox')], ['', true, seen.join(' ')]);
  const pointer = (name, x, y, shift) => frame.dispatchEvent(new PointerEvent(name, { clientX: x, clientY: y, shiftKey: shift, bubbles: true }));
  const left = seen[0]; pointer('pointerdown', 800, 400); pointer('pointermove', 900, 400); pointer('pointerup', 900, 400);
  same('dragged', near(left - seen[0], 100 * seen[2] / svg.clientWidth, 1e-6), true);
  const there = point_at({ clientX: 800, clientY: 400 });
  key('f'); const mirrored = point_at({ clientX: 800, clientY: 400 });
  same('from the back', near(there[0] + mirrored[0], 2 * seen[0] + seen[2], 1e-6), true);
  const other = seen[0]; pointer('pointerdown', 800, 400); pointer('pointermove', 900, 400); pointer('pointerup', 900, 400);
  same('dragged from the back', near(seen[0] - other, 100 * seen[2] / svg.clientWidth, 1e-6), true);
  key('f');
  pointer('pointerdown', 800, 400, true); pointer('pointermove', 900, 400, true); pointer('pointerup', 900, 400, true);
  same('measured', told.textContent, 'measured by eye: ' + (100 * seen[2] / svg.clientWidth).toFixed(3) + ' mm');
  const tick = [...document.querySelectorAll('#layers label')].find(label => label.textContent === 'F.Cu');
  tick.querySelector('span').click(); same('a layer alone', [...document.querySelectorAll('#layers label')].filter(label => label.textContent.endsWith('.Cu') && label.querySelector('input').checked).length, 1);
  tick.querySelector('span').click(); same('all layers', [...document.querySelectorAll('#layers label')].filter(label => label.textContent.endsWith('.Cu') && label.querySelector('input').checked).length, 2);
'''
SCRIPT = '''
  const choice = document.querySelector('#states select');
  same('states', choice.options.length, 6);
  show(1);
  same('what command', document.getElementById('command').textContent, '(move "v2" 0 0.05)');
  same('what went', entries().filter(to => to.startsWith('#went')), ['#went-1-0']);
  follow('#went-1-0'); await later(); same('gone', chosen(), '#went-1-0');
  show(5);
  same('clean', document.querySelector('#list .clean').textContent, 'No violations, no unconnected nets');
  show(3); same('refused', document.querySelector('#list .refused').textContent, 'command 3 refused: PartOfFootprint (3)');
  location.hash = '#row-0-1'; await later(); same('another state by a link', [now, chosen()], [0, '#row-0-1']);
'''
REFUSED = '''
  same('in the way', entries(), ['#row-0-0', '#row-0-1', '#row-0-2']);
  same('no place for a version', [marks(), data.states[0].rows[0].spot], [2, null]);
  same('its layers', data.layers.slice(-2).map(layer => layer[1]), ['B.Cu', 'in the way']);
  same('advice', document.querySelector('#list').textContent.includes('1 turned footprint in R1: turn them by'), true);
  follow('#row-0-0'); await later(); same('no place', chosen(), '#row-0-0');
  follow('#row-0-1'); await later(); same('a footprint', [chosen(), document.querySelectorAll('#picked > g').length], ['#row-0-1', 1]);
'''


def page(folder, board, report, script=None):
    """the text of a page of a board's text"""
    name = os.path.join(folder, 'board.kicad_pcb')
    with open(name, 'w', encoding='utf-8') as file:
        file.write(board)
    result = Result({'board': name, 'project': None, 'rules': None, 'script': script}, report, None, view.Page)
    return view.page_of('board', result, result.page)


def tried(tries, browser, folder, what, text, script):
    """runs a script in a page"""
    name = os.path.join(folder, 'page.html')
    with open(name, 'w', encoding='utf-8') as file:
        file.write(text.replace('<body>', '<body>' + HEAD, 1).replace('</body>', TAIL % script, 1))
    try:
        done = subprocess.run([browser, '--headless', '--no-sandbox', '--disable-gpu', '--disable-dev-shm-usage', '--user-data-dir=' + os.path.join(folder, 'profile'), '--window-size=1400,900',
                               '--virtual-time-budget=20000', '--dump-dom', 'file://' + name], capture_output=True, text=True, check=False, timeout=120)
        found = re.search(r'<pre id="result">(.*?)</pre>', done.stdout, re.S)
    except subprocess.TimeoutExpired:
        found = None
    if not found:
        tries.true(what + ': the browser told a result', False)
        return
    told = json.loads(found.group(1).replace('&lt;', '<').replace('&gt;', '>').replace('&amp;', '&'))
    tries.tried += told['counted']
    tries.same(what, told['wrong'], [])


def all_of(tries):
    browser = next((shutil.which(name) for name in BROWSERS if shutil.which(name)), None)
    if not browser:
        print('no Chromium: the script of the page was not tried')
        return
    read = {}
    for name in ('example.kicad_pcb', 'example.report', 'example_script.report'):
        with open(os.path.join(ROOT, 'docs', name), encoding='utf-8') as file:
            read[name] = file.read()
    board = read['example.kicad_pcb']
    turned = board.replace('20221018', '20241229').replace('(at 110 105)', '(at 110 105 30)').replace('smd roundrect (at -', 'smd trapezoid (at -')
    with tempfile.TemporaryDirectory() as folder:
        tried(tries, browser, folder, 'the page of the example', page(folder, board, read['example.report']), EXAMPLE)
        tried(tries, browser, folder, 'the page of a script', page(folder, board, read['example_script.report'], os.path.join(ROOT, 'docs/example.script')), SCRIPT)
        tried(tries, browser, folder, 'the page of a refused board', page(folder, turned, 'refused board: Version (3) at 20\n'), REFUSED)
