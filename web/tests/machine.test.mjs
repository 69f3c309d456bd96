// The page's machine over connections that end anywhere: each command is done once in the machine that counts.

import assert from 'node:assert/strict';
import { test as nodeTest } from 'node:test';
import { Machine } from '../machine.js';
import { Fault, commandOf, cycle, drop, lineOf, machineIn, rule, set, side } from '../lines.js';
import './detailed_event.mjs';
import { FakeNet } from './fake_net.mjs';
import { FakeStorage } from './fake_storage.mjs';
import { BALLS, ECHOES, OracleMachine, PARITY } from './oracle_machine.mjs';

/**
 * A test that may take two minutes.
 * @type {(name: string, work: () => Promise<void>) => void}
 */
const test = (name, work) => nodeTest(name, { timeout: 120000 }, work);

/**
 * A cycle of one rule of half A on the even grid and the odd one.
 * @type {(name: string) => import('../lines.js').Entry[]}
 */
const EVEN_ODD = name => [
  { a: name, b: '-', grid: 'EVEN', phase: 0 },
  { a: name, b: '-', grid: 'ODD', phase: 0 },
];
const ruleE = { name: 'E', half: 'A', hood: 'N/MARG', minor: '&/PHASES', text: ECHOES };
const ruleB = { ...ruleE, name: 'B', text: BALLS };
const ruleP = { name: 'P', half: 'A', hood: 'N/VONN', minor: '&/CENTERS', text: PARITY };

// Two cells side by side turn; three others lie over the seams.
const ECHO_COMMANDS = [
  side(128), rule(ruleE), cycle(EVEN_ODD('E')),
  set(0, 0, '8' + '0'.repeat(30) + '1'), set(0, 6, '0c'.padEnd(32, '0')), set(0, 127, '1'.padStart(32, '0')),
];
const ECHO_LINES = ECHO_COMMANDS.map(lineOf);

/**
 * A machine that connects over a fake network, without waits.
 * @type {(net: FakeNet, more?: Partial<import('../machine.js').Setting>) => Machine}
 */
const machineOf = (net, more = {}) => new Machine({
  urlOf: number => net.urlOf(number), hosts: net.hosts.length, WebSocketClass: net.WebSocket, wait: async () => {}, ...more,
});

/**
 * The rows of the four planes that the page has.
 * @param {Machine} machine
 */
const rowsOf = machine => [0, 1, 2, 3].map(plane =>
  Array.from({ length: machine.side }, (_, y) => machine.planes.rowOf(plane, y)));

/**
 * The machine that the oracle saves.
 * @param {OracleMachine} oracle
 */
const savedBy = oracle => machineIn(oracle.respond('{"do":"save"}'));

/**
 * The model shows what the machine has.
 * @param {Machine} machine
 * @param {OracleMachine} oracle
 */
function isSame(machine, oracle) {
  const saved = savedBy(oracle);
  assert.equal(machine.side, saved.side);
  assert.deepEqual(rowsOf(machine), saved.planes);
  assert.deepEqual(machine.rules, saved.rules);
  assert.deepEqual(machine.entries, saved.cycle);
  assert.deepEqual(machine.colours, saved.colours);
  assert.equal(machine.position, saved.position);
}

/**
 * The machine's cells, some of which have other states.
 * @param {Machine} machine
 * @param {[x: number, y: number, state: number][]} cells
 */
function painted(machine, cells) {
  const edited = machine.planes.clone();
  cells.forEach(([x, y, state]) => edited.put(x, y, state));
  return edited;
}

/**
 * A user's session, with some of everything.
 * @param {Machine} machine
 */
async function session(machine) {
  await machine.setUp(ECHO_COMMANDS);
  await Promise.all([machine.frame(1), machine.frame(1)]);
  await machine.frame(3);
  await machine.paint(painted(machine, [[3, 3, 1], [4, 3, 9], [200, 3, 2]]));
  await machine.run(7);
  await machine.back(3);
  await machine.define(ruleP);
  await machine.define({ ...ruleE, text: BALLS });
  await machine.run(2);
  await machine.setCycle(EVEN_ODD('E'));
  await machine.run(5);
  await machine.goTo(2);
  await machine.setColours([3, 2, 1, 0, 4, 5, 6, 7, 8, 9, 10, 11, 12, 13, 14, 15]);
  await machine.drop('P');
  await machine.frame(-1);
}

/**
 * A session over a network that never breaks, as the one to compare with.
 * @param {() => FakeNet} netOf
 */
async function unbroken(netOf) {
  const net = netOf();
  const machine = machineOf(net);
  await machine.start();
  await session(machine);
  isSame(machine, net.machine);
  machine.stop();
  return { saved: savedBy(net.machine), messages: net.messages, count: machine.count };
}

/** @type {('before'|'after')[]} */
const WHEN = ['before', 'after'];
/** A network with a machine for each page. */
const privateNet = () => new FakeNet();
/** A network with a host. */
const hostNet = () => {
  const net = new FakeNet({ hosts: [{ seats: 2 }] });
  net.hosts[0].machines[0].respond(lineOf(set(2, 9, 'f'.repeat(64))));
  net.hosts[0].machines[1].respond(lineOf(set(3, 9, 'f'.repeat(64))));
  return net;
};

test('a session shows what the machine has, and steps are those of the rule', async () => {
  const { saved, count } = await unbroken(privateNet);
  assert.equal(count, 1);
  const oracle = new OracleMachine();
  ECHO_LINES.forEach(line => assert.match(oracle.respond(line), /^{"ok"/));
  oracle.respond('{"do":"run","n":5}');
  [[3, 3, 1], [4, 3, 9], [200 - 128, 3, 2]].forEach(([x, y, state]) => oracle.put(x, y, state));
  oracle.respond('{"do":"run","n":4}');
  oracle.rules[0].text = BALLS;
  oracle.position = 0;
  oracle.respond('{"do":"run","n":2}');
  oracle.position = 0;
  oracle.respond('{"do":"run","n":1}');
  assert.deepEqual(saved.planes, savedBy(oracle).planes);
  assert.equal(saved.position, 1);
  assert.equal(saved.rules.length, 1);
});

for (const { name, netOf } of [{ name: 'a machine of the page', netOf: privateNet }, { name: 'a seat', netOf: hostNet }]) {
  test(`a connection to ${name} cut at each message, before and after it is done`, async () => {
    const whole = await unbroken(netOf);
    for (let at = 1; at <= whole.messages; at++) {
      for (const when of WHEN) {
        const net = netOf();
        net.cutAt(at, when);
        const machine = machineOf(net);
        machine.on('diverged', detail => assert.fail(`diverged: ${JSON.stringify(detail)}`));
        await machine.start();
        await session(machine);
        machine.stop();
        assert.deepEqual(savedBy(net.machine), whole.saved, `cut ${when} message ${at}`);
        assert.equal(machine.count, whole.count);
        isSame(machine, net.machine);
      }
    }
  });
}

test('a connection that is cut again and again while commands are played back', async () => {
  const whole = await unbroken(privateNet);
  for (const each of [13, 16, 19]) {
    const net = new FakeNet();
    for (let at = each, i = 0; at < 4000; at += each + i++ % 3) {
      net.cutAt(at, i % 2 ? 'after' : 'before');
    }
    const machine = machineOf(net);
    await machine.start();
    await session(machine);
    machine.stop();
    assert.ok(net.opened > 3, `${net.opened} connections`);
    assert.deepEqual(savedBy(net.machine), whole.saved);
  }
});

test('a page that is loaded again at each message goes on where it was', async () => {
  const whole = new FakeNet();
  const first = machineOf(whole, { storage: new FakeStorage() });
  await first.start();
  await session(first);
  first.stop();
  const total = whole.messages;
  for (let at = 2; at <= total; at += 1) {
    const net = new FakeNet();
    const storage = new FakeStorage();
    net.cutAt(at, at % 2 ? 'before' : 'after');
    let isGone = false;
    const machine = machineOf(net, { storage, wait: () => new Promise(() => { isGone = true; }) });
    machine.start();
    /** @type {Promise<void>} */
    const begun = new Promise(resolve => machine.on('state', ({ state }) => state === 'ready' && resolve()));
    const played = begun.then(() => session(machine));
    played.catch(() => {});
    while (!isGone) {
      await new Promise(setImmediate);
    }
    const other = new FakeNet();
    const again = machineOf(other, { storage: storage.copy() });
    await again.start();
    // What was noted is what the first page had asked for: the commands in order, each once.
    const oracle = new OracleMachine();
    const asked = linesOf(storage);
    asked.forEach(line => oracle.respond(line));
    assert.deepEqual(savedBy(other.machine), savedBy(oracle), `loaded again after message ${at}`);
    isSame(again, other.machine);
    again.stop();
    machine.stop();
  }
});

/**
 * The load line and the commands since, by the keys of the storage alone.
 * @param {FakeStorage} storage
 * @returns {string[]}
 */
function linesOf(storage) {
  const head = JSON.parse(storage.getItem('cam6/page') ?? 'null');
  if (head === null) {
    return [];
  }
  const found = [storage.getItem(`cam6/page/${head.generation}/save`) ?? ''];
  for (let slot = 0, text; (text = storage.getItem(`cam6/page/${head.generation}/${slot}`)) !== null; slot++) {
    found.push(...JSON.parse(text).map((/** @type {string[]} */ row) => row[0]));
  }
  return found;
}

test('a whole session that is loaded again has its count, its first state and its colours', async () => {
  const storage = new FakeStorage();
  const net = new FakeNet();
  const machine = machineOf(net, { storage });
  await machine.start();
  await session(machine);
  const { firstLine } = machine;
  assert.notEqual(firstLine, null);
  machine.stop();
  const other = new FakeNet();
  const again = machineOf(other, { storage });
  await again.start();
  assert.equal(again.count, 1);
  assert.equal(again.firstLine, firstLine);
  assert.deepEqual(savedBy(other.machine), savedBy(net.machine));
  assert.equal(again.isKept, true);
  again.stop();
});

test('seats: the first free one, the one that is asked for, the next host, and all taken', async () => {
  const net = new FakeNet({ hosts: [{ seats: 2 }, { seats: 3 }] });
  /** @type {Machine[]} */
  const made = [];
  /** @type {[wanted: number|null, host: number, seat: number, text: string][]} */
  const cases = [
    [2, 1, 2, 'You have seat 2 of host 1.'], [2, 1, 1, 'Seat 2 is taken. You have seat 1 of host 1.'],
    [9, 2, 1, 'There is no seat 9. You have seat 1 of host 2.'], [null, 2, 2, 'You have seat 2 of host 2.'],
    [null, 2, 3, 'You have seat 3 of host 2.'],
  ];
  for (const [wanted, host, seat, text] of cases) {
    const machine = machineOf(net, { seat: wanted });
    await machine.start();
    assert.deepEqual([machine.host, machine.seat, machine.text], [host, seat, text]);
    made.push(machine);
  }
  /** @type {string[]} */
  const states = [];
  let tries = 0;
  const late = machineOf(net, {
    wait: async () => { tries++ === 1 && made[3].stop(); },
  });
  late.on('state', ({ state }) => states.push(state));
  await late.start();
  assert.deepEqual(states, ['connecting', 'full', 'connecting', 'full', 'connecting', 'ready']);
  assert.deepEqual([late.host, late.seat], [2, 2]);
  [...made, late].forEach(machine => machine.stop());
});

test('a seat has its last user\'s machine: a page without a journal takes it, another one loads its own', async () => {
  const net = hostNet();
  const machine = machineOf(net);
  await machine.start();
  assert.equal(machine.planes.get(0, 9), 4);
  await machine.run(0).catch(error => assert.equal(error.number, 63));
  await machine.paint(painted(machine, [[5, 5, 3]]));
  net.hosts[0].taken.add(1);
  net.cutAll();
  net.hosts[0].taken.add(1);
  await machine.save();
  assert.equal(machine.seat, 2);
  assert.equal(machine.planes.get(0, 9), 4);
  assert.equal(machine.planes.get(5, 5), 3);
  isSame(machine, net.hosts[0].machines[1]);
  machine.stop();
});

test('a machine that is larger than a host allows is kept, and another host is tried', async () => {
  const net = new FakeNet({ hosts: [{ seats: 2, limit: 512 }, { seats: 1, limit: 256 }] });
  const machine = machineOf(net);
  await machine.start();
  await machine.setSide(512);
  await machine.paint(painted(machine, [[500, 500, 1]]));
  net.hosts[0].isUp = false;
  /** @type {{state: string, text: string}[]} */
  const texts = [];
  let tries = 0;
  machine.on('state', detail => texts.push(detail));
  const back = machineOf(net, { storage: null });
  back.stop();
  net.cutAll();
  await new Promise(setImmediate);
  while (!texts.some(({ text }) => text.includes('larger')) && tries++ < 1000) {
    await new Promise(setImmediate);
  }
  assert.ok(texts.some(({ state, text }) => state === 'lost' && text.includes('larger than the hosts allow')));
  net.hosts[0].isUp = true;
  await machine.save();
  assert.equal(machine.side, 512);
  assert.equal(machine.planes.get(500, 500), 1);
  machine.stop();
});

test('a load of a side that is too large has fault 67, and changes nothing', async () => {
  const net = new FakeNet({ hosts: [{ seats: 1, limit: 256 }] });
  const machine = machineOf(net);
  await machine.start();
  await machine.setUp(ECHO_COMMANDS);
  const large = new OracleMachine(512);
  large.respond(lineOf(side(512)));
  const before = savedBy(net.machine);
  await assert.rejects(machine.load(JSON.stringify({ do: 'load', machine: savedBy(large) })), { number: 67 });
  await assert.rejects(machine.setSide(512), { number: 67 });
  assert.deepEqual(savedBy(net.machine), before);
  isSame(machine, net.machine);
  net.cutAll();
  await machine.save();
  assert.deepEqual(savedBy(net.machine), before);
  machine.stop();
});

test('a host that answers otherwise when commands are played again is reported', async () => {
  const net = new FakeNet();
  const machine = machineOf(net);
  await machine.start();
  await machine.setUp(ECHO_COMMANDS);
  await machine.run(1);
  /** @type {{line: string, wanted: string, got: string}[]} */
  const messages = [];
  machine.on('diverged', detail => messages.push(detail));
  const { do_run } = OracleMachine.prototype;
  /** @param {{n: number}} command */
  OracleMachine.prototype.do_run = function run({ n }) { return do_run.call(this, { n: n + 1 }); };
  net.cutAll();
  await machine.save();
  OracleMachine.prototype.do_run = do_run;
  assert.deepEqual(messages, [{ line: '{"do":"run","n":1}', wanted: '{"ok":"run","position":1}', got: '{"ok":"run","position":0}' }]);
  isSame(machine, net.machine);
  machine.stop();
});

test('a command that ends each connection is left out, and the others are done', async () => {
  const net = new FakeNet();
  const machine = machineOf(net);
  await machine.start();
  await machine.setUp(ECHO_COMMANDS);
  const { do_map } = OracleMachine.prototype;
  OracleMachine.prototype.do_map = () => { setImmediate(() => net.cutAll()); throw new Error('ended'); };
  const { arrived } = net.WebSocket.prototype;
  /** @param {string} line */
  net.WebSocket.prototype.arrived = function guarded(line) {
    try {
      arrived.call(this, line);
    } catch {
      this.end(1001, 'the host is gone');
    }
  };
  const colours = machine.setColours([...machine.colours].reverse());
  const ran = machine.run(3);
  await assert.rejects(colours, { number: 0 });
  await ran;
  OracleMachine.prototype.do_map = do_map;
  assert.equal(machine.count, 3);
  isSame(machine, net.machine);
  machine.stop();
});

test('faults are thrown with their answer, and the machine and its count stay', async () => {
  const net = new FakeNet();
  const machine = machineOf(net);
  await machine.start();
  await machine.setUp(ECHO_COMMANDS);
  await machine.run(3);
  const before = savedBy(net.machine);
  const strange = { ...ruleE, text: ': E NORTHEAST >PLN0 ;' };
  await assert.rejects(machine.define(strange), error => error instanceof Fault && error.number === 20 && error.answer.token === 3);
  await assert.rejects(machine.drop('E'), { number: 61 });
  await assert.rejects(machine.setCycle([{ a: 'Q', b: '-', grid: 'EVEN', phase: 0 }]), { number: 60 });
  await assert.rejects(machine.setUp([side(128), commandOf('{"do":"fly"}'), drop('Z')]), { number: 3, line: 2 });
  await machine.load(JSON.stringify({ do: 'load', machine: before }));
  assert.deepEqual(savedBy(net.machine), before);
  assert.equal(machine.count, 0);
  await assert.rejects(machine.load('no machine'), { name: 'NotAMachine' });
  machine.stop();
});

test('a rule that the cycle uses is redefined; entries of its old half get a dash', async () => {
  const net = new FakeNet();
  const machine = machineOf(net);
  await machine.start();
  await machine.setUp(ECHO_COMMANDS);
  await machine.run(1);
  await machine.define({ ...ruleE, text: BALLS });
  assert.deepEqual(machine.entries, EVEN_ODD('E'));
  assert.equal(machine.rules[0].text, BALLS);
  assert.equal(machine.position, 0);
  await machine.define({ ...ruleE, half: 'B', text: ': E CENTER >PLN2 ;' });
  assert.deepEqual(machine.entries.map(({ a }) => a), ['-', '-']);
  assert.equal(machine.rules[0].half, 'B');
  isSame(machine, net.machine);
  machine.stop();
});

test('the scrubber goes back by undoing, or from the first state if that can\'t be', async () => {
  const net = new FakeNet();
  const machine = machineOf(net);
  await machine.start();
  await machine.setUp(ECHO_COMMANDS);
  const first = rowsOf(machine);
  await machine.run(9);
  const later = rowsOf(machine);
  await machine.goTo(0);
  assert.deepEqual(rowsOf(machine), first);
  await machine.goTo(-3);
  assert.equal(machine.count, -3);
  await machine.goTo(9);
  assert.deepEqual(rowsOf(machine), later);
  assert.deepEqual(await machine.canGoBack(), { yes: true });
  await machine.define(ruleP);
  await machine.setCycle([{ a: 'P', b: '-', grid: 'EVEN', phase: 0 }]);
  await machine.paint(painted(machine, [[50, 50, 1]]));
  const parity = rowsOf(machine);
  await machine.frame(1);
  await machine.frame(5);
  await machine.setColours([...machine.colours].reverse());
  assert.deepEqual(await machine.canGoBack(), { no: true, fault: { cause: 'hood', entry: 0, fault: 64, half: 'A' } });
  await assert.rejects(machine.back(1), { number: 64 });
  await machine.goTo(2);
  assert.equal(machine.count, 2);
  await machine.goTo(0);
  assert.deepEqual(rowsOf(machine), parity);
  assert.equal(machine.colours[0], 15);
  await assert.rejects(machine.goTo(-1), { number: 64 });
  isSame(machine, net.machine);
  machine.stop();
});

test('frames: two under way at most, none beside a command, and only planes that move are asked for', async () => {
  const net = new FakeNet();
  const machine = machineOf(net);
  await machine.start();
  await machine.setUp(ECHO_COMMANDS);
  assert.deepEqual(machine.moves, [0]);
  await machine.frame(1);
  net.heard.length = 0;
  const frames = [machine.frame(1), machine.frame(2), machine.frame(1)];
  assert.equal(machine.framesUnderWay, 2);
  assert.deepEqual(await Promise.all(frames), [true, true, false]);
  assert.deepEqual(net.heard, ['{"do":"run","n":1}', '{"do":"plane","plane":0}', '{"do":"run","n":2}', '{"do":"plane","plane":0}']);
  const run = machine.run(1);
  assert.equal(await machine.frame(1), false);
  await run;
  assert.equal(machine.count, 5);
  isSame(machine, net.machine);
  machine.stop();
});

/**
 * What JSON.parse is given while something is done. The oracle machine has a JSON.parse of its own.
 * @param {() => Promise<void>} work
 */
async function parsedBy(work) {
  const { parse } = JSON;
  /** @type {string[]} */
  const texts = [];
  JSON.parse = text => {
    texts.push(text);
    return parse(text);
  };
  try {
    await work();
  } finally {
    JSON.parse = parse;
  }
  return texts;
}

test('each reply is parsed once, and no line that the page made', async () => {
  const net = new FakeNet();
  const machine = machineOf(net, { storage: new FakeStorage() });
  await machine.start();
  const setUp = await parsedBy(() => machine.setUp(ECHO_COMMANDS));
  assert.equal(setUp.length, 8, 'of a blank machine, of six commands, and of a save');
  await machine.run(3);
  await machine.back(1);
  net.heard.length = 0;
  const back = await parsedBy(() => machine.back(1));
  assert.deepEqual(net.heard, ['{"do":"back","n":1}', '{"do":"plane","plane":0}']);
  assert.equal(back.length, 2, 'of a step back, and of the one plane that the rule writes');
  assert.deepEqual(back.map(text => text.slice(0, 13)), ['{"ok":"back",', '{"ok":"plane"']);
  machine.stop();
});

test('lines of a file go out as they stand there', async () => {
  const net = new FakeNet();
  const machine = machineOf(net);
  await machine.start();
  const file = ['{ "side" : 128, "do" : "side" }', '{"do":"map","colours":[1.0,1,1,1,1,1,1,1,1,1,1,1,1,1,1,1e0]}', '{"do":"fly","x":"\\u0041"}'];
  net.heard.length = 0;
  await assert.rejects(machine.load(`${file.join('\r\n')}\n`), { number: 3, line: 3 });
  assert.deepEqual(net.heard.slice(1, -1), file);
  const saved = await machine.save();
  net.heard.length = 0;
  await machine.load(`${saved}\n{"do":"clear", "plane":0}`);
  assert.deepEqual(net.heard, [saved, '{"do":"clear", "plane":0}', '{"do":"save"}']);
  assert.equal(machine.colours[15], 1);
  machine.stop();
});

test('a stroke that is drawn while the machine runs changes only its own cells', async () => {
  const net = new FakeNet();
  const machine = machineOf(net);
  await machine.start();
  await machine.setUp(ECHO_COMMANDS);
  const base = machine.planes.clone();
  const edited = base.clone();
  edited.put(100, 100, 5);
  const frames = [machine.frame(1), machine.frame(1)];
  await machine.paint(edited, base);
  await Promise.all(frames);
  const oracle = new OracleMachine();
  ECHO_LINES.forEach(line => oracle.respond(line));
  oracle.respond('{"do":"run","n":2}');
  oracle.put(100, 100, 5);
  assert.deepEqual(rowsOf(machine), savedBy(oracle).planes);
  assert.equal(machine.count, 0);
  isSame(machine, net.machine);
  machine.stop();
});

test('a stroke that a lost connection interrupts is shown as the machine has it', async () => {
  for (let at = 1; at <= 6; at++) {
    for (const when of WHEN) {
      const net = new FakeNet();
      const machine = machineOf(net);
      await machine.start();
      await machine.setUp(ECHO_COMMANDS);
      net.cutAt(net.messages + at, when);
      await machine.paint(painted(machine, [[3, 3, 1], [4, 50, 14], [77, 90, 3]]));
      assert.equal(machine.planes.get(4, 50), 14);
      isSame(machine, net.machine);
      machine.stop();
    }
  }
});

test('a host that is gone is reported with its reason, and the page goes on after it is back', async () => {
  const net = new FakeNet();
  /** @type {string[]} */
  const messages = [];
  /** @type {number[]} */
  const waits = [];
  const machine = machineOf(net, {
    wait: async milliseconds => {
      waits.push(milliseconds);
      net.isUp = waits.length >= 8;
    },
  });
  machine.on('state', ({ state, text }) => messages.push(`${state}: ${text}`));
  await machine.start();
  await machine.setUp(ECHO_COMMANDS);
  net.isUp = false;
  net.cutAll();
  await machine.run(2);
  assert.deepEqual(waits, [200, 400, 800, 1600, 3200, 5000, 5000, 5000]);
  const lost = 'lost: The connection is lost: the host is gone. The page tries again. Nothing of your machine is lost.';
  assert.equal(messages.filter(text => text === lost).length, 8);
  assert.deepEqual(messages.slice(-3).map(text => text.split(':')[0]), ['connecting', 'playing back', 'ready']);
  assert.equal(machine.count, 2);
  machine.stop();
});

test('after a loss the page sits down at its own seat again if it is free', async () => {
  const net = new FakeNet({ hosts: [{ seats: 3 }] });
  net.hosts[0].taken.add(1);
  const machine = machineOf(net);
  await machine.start();
  assert.equal(machine.seat, 2);
  net.hosts[0].taken.delete(1);
  net.cutAll();
  await machine.save();
  assert.equal(machine.seat, 2);
  machine.stop();
});

test('a plane that becomes blank is one line, and rows that stay are none', async () => {
  const net = new FakeNet();
  const machine = machineOf(net);
  await machine.start();
  await machine.setUp(ECHO_COMMANDS);
  net.heard.length = 0;
  const edited = machine.planes.clone();
  edited.cells.fill(0);
  edited.put(1, 127, 8);
  await machine.paint(edited);
  assert.deepEqual(net.heard, ['{"do":"clear","plane":0}', lineOf(set(3, 127, '4'.padEnd(32, '0')))]);
  isSame(machine, net.machine);
  machine.stop();
});

test('journals are bounded: many commands and long runs bring a save', async () => {
  const net = new FakeNet();
  const machine = machineOf(net);
  await machine.start();
  await machine.setUp(ECHO_COMMANDS);
  const { do_run } = OracleMachine.prototype;
  let steps = 0;
  /** @param {{n: number}} command */
  OracleMachine.prototype.do_run = ({ n }) => {
    steps += n;
    return { position: n % 2 };
  };
  await machine.run(200000);
  const runs = net.heard.filter(line => line.includes('"run"')).map(line => JSON.parse(line).n);
  assert.deepEqual(runs, [65535, 65535, 65535, 3395]);
  assert.equal(steps, 200000);
  assert.equal(machine.count, 200000);
  net.heard.length = 0;
  net.cutAll();
  await machine.save();
  const again = net.heard.filter(line => line.includes('"run"')).map(line => JSON.parse(line).n);
  OracleMachine.prototype.do_run = do_run;
  assert.ok(again.reduce((sum, n) => sum + n, 0) <= 2 * 65535, `played again: ${again}`);
  for (let i = 0; i < 1500; i++) {
    await machine.paint(painted(machine, [[3, 3, 1 + i % 2]]));
  }
  net.heard.length = 0;
  net.cutAll();
  await machine.save();
  assert.ok(net.heard.length < 1100);
  machine.stop();
});
