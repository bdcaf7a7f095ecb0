'use strict';
const by = id => document.getElementById(id);
const FIELDS = ['module', 'calls', 'schedule'];
const NUMBERS = ['processes', 'budget'];
const GIVEN = [...FIELDS, ...NUMBERS, 'always'];
const LABELS = ['NEXT', 'POST', 'FLIP', 'TRY', 'LINK', 'LOAD', 'STORE', 'CHECK1', 'MINE', 'SEEN', 'FETCH', 'CHECK2', 'SAVE', 'ENTER', 'BODY', 'UNDO', 'KEEP',
  'COMMIT', 'READ', 'TAKE', 'GIVE'];
const MOST_PROCESSES = 16;
// After so many milliseconds it is told that the work goes on, and a change of the texts begins it anew.
const PATIENCE = 1000;
const FAULT = 1;
const SHOWN = ['record', 'replies', 'state', 'picture', 'outcomes'];
// Why a call has no answer.
const SENTENCES = {
  stack: 'This needs more stack than the browser gives: the module nests, or calls itself, too deeply for a page. The program has more.',
  memory: 'There is no memory for this in the browser.',
  stopped: 'Stopped.',
};
const TOO_OLD = 'This browser is too old for the page, whose module has memory with 64-bit addresses. Chromium 133, Firefox 134 and later ones can run it.';

// The module in its worker: words and files in, a status and two texts out, each call behind the one before it.
class Obl0 {
  constructor(bytes) {
    this.bytes = bytes;
    this.number = 0;
    this.waiting = new Map();
    this.begin();
  }
  begin() {
    this.worker = new Worker(URL.createObjectURL(new Blob([by('engine').textContent], { type: 'text/javascript' })));
    this.worker.onmessage = ({ data }) => this.tell(data.number, data);
    this.worker.onerror = event => {
      event.preventDefault();
      for (const number of [...this.waiting.keys()]) this.tell(number, { broken: event.message });
    };
    this.worker.postMessage({ bytes: this.bytes });
  }
  tell(number, told) {
    this.waiting.get(number)?.(told);
    this.waiting.delete(number);
  }
  ask(words, files = []) {
    const number = ++this.number;
    return new Promise(done => {
      this.waiting.set(number, done);
      this.worker.postMessage({ number, words, files });
    });
  }
  // What is at work is given up, and there is an answer to nothing that was asked for.
  stop() {
    this.worker.terminate();
    for (const number of [...this.waiting.keys()]) this.tell(number, { broken: 'stopped' });
    this.begin();
  }
}

// What the module answers, for whoever has words and files at hand: `await answer(['check', 'm'], [['m', 'MODULE M; END M.']])`.
function answer(words, files = []) {
  return obl0.ask(words, files);
}

// Texts as they stand in an address: what the page has, as JSON that is compressed, in letters that an address may have.
async function through(stream, bytes) {
  return new Uint8Array(await new Response(new Blob([bytes]).stream().pipeThrough(stream)).arrayBuffer());
}
const letters = bytes => btoa(Array.from(bytes, it => String.fromCharCode(it)).join('')).replace(/\+/g, '-').replace(/\//g, '_').replace(/=+$/, '');
const unlettered = text => Uint8Array.from(atob(text.replace(/-/g, '+').replace(/_/g, '/')), it => it.charCodeAt(0));
const given = () => Object.fromEntries(GIVEN.map(id => [id, by(id).value]));
async function address() {
  const bytes = await through(new CompressionStream('deflate-raw'), new TextEncoder().encode(JSON.stringify(given())));
  return '#1' + letters(bytes);
}
async function told_by_address() {
  try {
    if (!location.hash.startsWith('#1')) return null;
    const bytes = await through(new DecompressionStream('deflate-raw'), unlettered(location.hash.slice(2)));
    return JSON.parse(new TextDecoder().decode(bytes));
  } catch {
    by('status').textContent = 'The address of this page has no texts that can be read.';
    return null;
  }
}
function take(texts) {
  for (const id of GIVEN) if (typeof texts[id] === 'string') by(id).value = texts[id];
  taken_back.length = 0;
  told_before = null;
}

// The editors: numbers of lines, and a fault in its line.
const faults = {};
function number_lines(id) {
  const area = by(id), numbers = area.previousElementSibling, count = area.value.split('\n').length;
  numbers.replaceChildren(...Array.from({ length: count }, (_, at) => {
    const it = document.createElement(faults[id]?.line === at + 1 ? 'b' : 'span');
    it.textContent = at + 1;
    return it;
  }).flatMap(it => [it, '\n']));
  numbers.scrollTop = area.scrollTop;
}
// What `explain` tells: the place, and below it the line, a mark, and sentences.
function show_fault(text) {
  const place = /^(module|calls|schedule):(\d+):(\d+)\n/.exec(text);
  for (const id of FIELDS) {
    delete faults[id];
    if (place?.[1] === id) faults[id] = { line: Number(place[2]), column: Number(place[3]), text: text.slice(place[0].length) };
    const box = by(id + '-fault');
    box.replaceChildren();
    by(id).setAttribute('aria-invalid', String(id in faults));
    if (id in faults) {
      const { code, said, further } = parts_of(faults[id].text), pre = document.createElement('pre'), go = document.createElement('button');
      pre.textContent = code;
      go.type = 'button';
      go.textContent = `Go to line ${faults[id].line}`;
      go.onclick = () => go_to(id, faults[id]);
      const made = (kind, it) => Object.assign(document.createElement(kind), { textContent: it });
      box.append(pre, ...said.map(it => made('p', it)), ...further.map(it => made('pre', it)), go);
    }
    number_lines(id);
  }
  return place !== null;
}
// The line at fault with its mark, what is said of it, and what is told of the text with its slip mended.
function parts_of(text) {
  const lines = text.trimEnd().split('\n'), mark = lines.findIndex(it => /^\s*\^$/.test(it));
  const mended = lines.findIndex((it, at) => at > mark + 1 && it.startsWith('with ')), end = mended < 0 ? lines.length : mended;
  return { code: lines.slice(0, mark + 1).join('\n'), said: lines.slice(mark + 1, end), further: mended < 0 ? [] : [lines.slice(end).join('\n')] };
}
// A column counts bytes, and a place of a text area counts units of UTF-16.
function go_to(id, { line, column }) {
  const area = by(id), lines = area.value.split('\n');
  const before = lines.slice(0, line - 1).reduce((sum, it) => sum + it.length + 1, 0);
  const left = new TextEncoder().encode(lines[line - 1] ?? '').subarray(0, column - 1);
  const at = before + new TextDecoder().decode(left).length;
  area.focus();
  area.setSelectionRange(at, Math.min(at + 1, area.value.length));
  area.scrollTop = Math.max(0, line - 5) * 18;
}

// One look at all that the page shows.
const text_of = told => new TextDecoder().decode(told.status === 0 ? told.out : told.err.length ? told.err : told.out);
const sentence = told => SENTENCES[told.broken] ?? `The module has failed: ${told.broken}`;
let obl0, told_before = null, picture_address = null, looking = false, once_more = false, stopped = false, stepped = false, began = 0;

function words_of() {
  const [n, b] = NUMBERS.map(id => by(id).value.trim()), always = by('always').value.trim();
  return { run: ['module', 'calls', 'schedule', '-n', n, '-b', b], calls: ['module', 'calls', '-b', b], all: ['module', 'calls', '-n', n, '-b', b], always: always ? ['--always', always] : [] };
}
const files_of = () => FIELDS.map(id => [id, by(id).value]);

function put(id, told) {
  const box = by(id);
  box.textContent = told.broken ? sentence(told) : text_of(told);
  box.classList.toggle('refused', Boolean(told.broken) || told.status !== 0);
}
// Where something does not always hold, the calls behind which it does not are told, and a schedule that makes them.
let witness = null;
function put_outcomes(outcomes, told) {
  put('outcomes', told);
  witness = outcomes.broken || outcomes.status === 0 ? null : /^run shows these calls with the schedule (.*)$/m.exec(text_of(told))?.[1] ?? null;
  by('witness').hidden = witness === null;
}
async function put_picture(told) {
  const box = by('picture');
  if (told.broken || told.status !== 0) {
    const line = document.createElement('p');
    line.className = 'refused';
    line.textContent = told.broken ? sentence(told) : text_of(told);
    box.replaceChildren(line);
    return;
  }
  const image = new Image(), old = picture_address;
  picture_address = URL.createObjectURL(new Blob([told.out], { type: 'image/svg+xml' }));
  image.alt = 'The calls of each process as bars from their beginning to their end, with circles where they were made. The record says the same in text.';
  image.src = picture_address;
  await image.decode().catch(() => {});
  const { scrollLeft, scrollTop } = box;
  box.replaceChildren(image);
  image.classList.toggle('fitted', image.naturalWidth < 1.6 * box.clientWidth);
  // What a step has added stands at the right.
  box.scrollLeft = stepped ? box.scrollWidth : scrollLeft;
  box.scrollTop = scrollTop;
  stepped = false;
  if (old) URL.revokeObjectURL(old);
}
// The label at which each process stands, at its button.
function put_labels(lines) {
  const found = new Map(lines.map(line => /^P (\d+) (\S+)/.exec(line)).filter(it => it).map(it => [Number(it[1]), it[2]]));
  [...by('steppers').children].forEach((it, process) => {
    it.lastElementChild.textContent = found.get(process) ?? '';
    it.setAttribute('aria-label', found.has(process) ? `Step process ${process}, which stands at ${found.get(process)}` : `Step process ${process}`);
  });
}
// The lines that were not there behind the schedule before stand out.
function put_state(told) {
  const box = by('state');
  if (told.broken || told.status !== 0) { put('state', told); put_labels([]); told_before = null; return; }
  const lines = text_of(told).trimEnd().split('\n'), old = told_before && new Set(told_before);
  box.classList.remove('refused');
  box.replaceChildren(...lines.flatMap(line => {
    const it = document.createElement('span');
    it.textContent = line;
    if (old && !old.has(line)) it.className = 'fresh';
    return [it, '\n'];
  }));
  told_before = lines;
  put_labels(lines);
}

// That a look is given up, since the texts are others now, or since it was stopped.
class GivenUp extends Error {}

async function look() {
  if (looking) {
    once_more = true;
    if (performance.now() - began > PATIENCE) obl0.stop();
    return;
  }
  looking = true;
  document.body.dataset.looking = 'yes';
  do {
    once_more = stopped = false;
    began = performance.now();
    const slow = setTimeout(working, PATIENCE);
    try {
      by('status').textContent = await look_once();
      for (const id of SHOWN) by(id).classList.remove('stale');
    } catch (error) {
      if (!(error instanceof GivenUp)) throw error;
      by('status').textContent = 'Stopped.';
    } finally {
      clearTimeout(slow);
    }
  } while (once_more);
  looking = false;
  document.body.dataset.looking = 'no';
}
// What is shown is of other texts until the work is done.
function working() {
  const stop = document.createElement('button');
  stop.type = 'button';
  stop.textContent = 'Stop';
  stop.onclick = () => {
    stopped = true;
    obl0.stop();
  };
  by('status').replaceChildren('working .. ', stop);
  for (const id of SHOWN) by(id).classList.add('stale');
}
// Shows all, and gives what is to be said of no text in particular.
async function look_once() {
  const { run, calls, all, always } = words_of(), files = files_of();
  const ask_of = async (words, files) => {
    const told = await obl0.ask(words, files);
    if (once_more || stopped) throw new GivenUp();
    return told;
  };
  const ask = (...words) => ask_of(words, files);
  for (const id of FIELDS) number_lines(id);
  address().then(it => { by('link').href = it; history.replaceState(null, '', it); });
  const explained = await ask('explain', ...run);
  const is_placed = show_fault(explained.broken || explained.status === 0 ? '' : text_of(explained));
  const record = await ask('run', ...run), drawn = await ask('draw', ...run), state = await ask('state', ...run);
  const replies = await ask('seq', ...calls);
  put('record', record);
  put('replies', replies);
  put_state(state);
  await put_picture(drawn);
  if (by('outcomes-part').open) {
    const outcomes = await ask('outcomes', ...all, ...always);
    put_outcomes(outcomes, always.length && outcomes.status === FAULT ? await ask('explain', ...all, ...always) : outcomes);
  }
  return explained.broken ? sentence(explained) : explained.status === 0 || is_placed ? '' : text_of(explained);
}

// The stepper: each press writes behind the schedule.
const taken_back = [];
function steppers() {
  const n = Math.min(MOST_PROCESSES, Math.max(0, parseInt(by('processes').value, 10) || 0)), box = by('steppers');
  if (box.children.length === n) return;
  box.replaceChildren(...Array.from({ length: n }, (_, process) => {
    const it = document.createElement('button');
    it.type = 'button';
    it.id = `P${process}`;
    it.append(`P${process} `, document.createElement('small'));
    it.setAttribute('aria-label', `Step process ${process}`);
    it.onclick = () => step(process);
    return it;
  }));
}
function write_schedule(text) {
  const area = by('schedule');
  if (area.value === text) return;
  taken_back.push(area.value);
  area.value = text;
  area.scrollTop = area.scrollHeight;
  stepped = true;
  look();
}
// An item behind a schedule: in a line of its own behind a remark, and as one with the item before it where both are steps of one process.
function with_item(schedule, process, unit) {
  const line = schedule.slice(schedule.lastIndexOf('\n') + 1), is_remark = line.trimStart().startsWith('#');
  const last = is_remark ? null : /(?:^|\s)(\d+)\*(\d+)\s*$/.exec(schedule);
  if (/^\d+$/.test(unit) && last && Number(last[1]) === process)
    return schedule.trimEnd().replace(/\d+$/, count => Number(count) + Number(unit));
  const item = /^\d+$/.test(unit) ? `${process}*${unit}` : unit === '!' ? `${process}!` : `${process}:${unit}`;
  const room = schedule === '' || schedule.endsWith('\n') || schedule.endsWith(' ') ? '' : is_remark || line.length > 24 ? '\n' : ' ';
  return schedule + room + item;
}
function step(process) { write_schedule(with_item(by('schedule').value, process, by('unit').value)); }
function take_back() {
  if (!taken_back.length) return;
  by('schedule').value = taken_back.pop();
  look();
}
// As `run --finish` goes on: each process steps until it has no call left.
function to_the_end() {
  const owners = by('calls').value.split('\n').map(it => it.trim().split(/\s+/)[0]).filter(it => /^\d+$/.test(it));
  write_schedule(owners.reduce((schedule, process) => with_item(schedule, Number(process), '!'), by('schedule').value));
}
async function by_chance() {
  const { all } = words_of(), seed = String(crypto.getRandomValues(new Uint32Array(1))[0]);
  const told = await obl0.ask(['run', ...all, '--seed', seed, '--finish'], files_of());
  if (told.broken || told.status !== 0) { by('status').textContent = told.broken ? sentence(told) : text_of(told); return; }
  const line = text_of(told).split('\n').find(it => it.startsWith('S'));
  write_schedule(line.slice(2).replace(/((?:\S+ ){3}\S+) /g, '$1\n'));
}

function examples() {
  const all = JSON.parse(by('examples').textContent), box = by('example');
  box.append(new Option('your own', ''), ...all.map(it => new Option(it.about ? `${it.name}: ${it.about}` : it.name, it.name)));
  box.onchange = () => {
    const one = all.find(it => it.name === box.value);
    if (!one) return;
    take({ always: '', ...one, budget: '100000' });
    steppers();
    look();
  };
  return all;
}
function listen() {
  let soon;
  const later = () => {
    clearTimeout(soon);
    soon = setTimeout(look, 150);
  };
  for (const id of FIELDS) {
    by(id).addEventListener('input', () => { by('example').value = ''; number_lines(id); later(); });
    by(id).addEventListener('scroll', () => { by(id).previousElementSibling.scrollTop = by(id).scrollTop; });
  }
  for (const id of [...NUMBERS, 'always']) by(id).addEventListener('input', () => { steppers(); later(); });
  by('witness').onclick = () => { if (witness !== null) write_schedule(witness + '\n'); };
  by('unit').append(new Option('one step', '1'), new Option('ten steps', '10'), new Option('steps until it answers', '!'),
    ...LABELS.map(it => new Option(`steps to ${it}`, it)));
  by('back').onclick = take_back;
  by('clear').onclick = () => write_schedule('');
  by('end').onclick = to_the_end;
  by('chance').onclick = by_chance;
  by('outcomes-part').ontoggle = () => { if (by('outcomes-part').open) look(); };
  by('copy').onclick = async () => {
    const whole = new URL(await address(), location.href).href;
    by('copy').textContent = await navigator.clipboard.writeText(whole).then(() => 'Copied', () => 'The address bar has it');
    setTimeout(() => { by('copy').textContent = 'Copy the link'; }, 2000);
  };
  addEventListener('keydown', event => {
    if (event.ctrlKey || event.metaKey || event.altKey || event.target.closest('textarea, input, select')) return;
    if (event.key === 'Backspace') take_back();
    else if (/^\d$/.test(event.key) && Number(event.key) < by('steppers').children.length) step(Number(event.key));
    else return;
    event.preventDefault();
  });
  addEventListener('hashchange', async () => {
    if (location.hash === await address()) return;
    const texts = await told_by_address();
    if (!texts) return;
    take(texts);
    by('example').value = '';
    steppers();
    look();
  });
}

async function begin() {
  const all = examples();
  listen();
  const linked = await told_by_address();
  take(linked ?? { ...all[0], budget: '100000' });
  by('example').value = linked ? '' : all[0].name;
  steppers();
  for (const id of FIELDS) number_lines(id);
  try {
    const bytes = await through(new DecompressionStream('gzip'), unlettered(by('wasm').textContent.trim()));
    // A module without functions, with a memory of 64-bit addresses.
    if (!WebAssembly.validate(new Uint8Array([0, 97, 115, 109, 1, 0, 0, 0, 5, 3, 1, 4, 1]))) throw new Error('no memory of 64-bit addresses');
    obl0 = new Obl0(bytes);
  } catch (error) {
    by('status').textContent = `${TOO_OLD} (${error.message})`;
    return;
  }
  const asked = performance.now(), version = await obl0.ask(['version']);
  const { kit, sources, sum } = by('wasm').dataset;
  const about = sources ? `It was proved and made by ${kit} of sources with the sum ${sources}.` : 'It was handed in, and nothing says whether it was proved.';
  const told = version.broken ? sentence(version) : `The code is that of ${text_of(version).trim().replace('\n', ', ')}.`;
  by('about').textContent = `${told} ${about} The module of WebAssembly has the SHA-256 ${sum}.`;
  document.body.dataset.first = Math.round(performance.now() - asked);
  await look();
  document.body.dataset.shown = 'yes';
}
begin();
