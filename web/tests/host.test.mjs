// One connection, the search for a seat, and the order of commands and frames.

import assert from 'node:assert/strict';
import { test } from 'node:test';
import { Host, Lost, NoSeat, sitDown } from '../host.js';
import { Queue } from '../queue.js';
import { FakeNet } from './fake_net.mjs';

/** Resolves after what is due now. */
const later = () => new Promise(setImmediate);

test('replies come to the lines in order, several under way', async () => {
  const net = new FakeNet();
  const host = await Host.open(net.urlOf(0), net.WebSocket);
  const replies = await Promise.all(['{"do":"run","n":1}', 'no', '{"do":"count","mask":1}'].map(line => host.ask(line)));
  assert.deepEqual(replies, ['{"fault":63}', '{"fault":2}', '{"count":65536,"ok":"count"}']);
  host.close();
});

test('a connection that ends rejects what waits, once, and tells why', async () => {
  const net = new FakeNet();
  const host = await Host.open(net.urlOf(0), net.WebSocket);
  /** @type {(number|string)[]} */
  const losses = [];
  host.onLost(lost => losses.push(lost.code));
  const asked = [host.ask('{"do":"rules"}'), host.ask('{"do":"rules"}')];
  net.cutAll();
  for (const one of asked) {
    await assert.rejects(one, error => error instanceof Lost && error.code === 1001 && error.reason === 'the host is gone');
  }
  await assert.rejects(host.ask('{"do":"rules"}'), Lost);
  host.close();
  host.onLost(lost => losses.push(lost.reason));
  assert.deepEqual(losses, [1001, 'the host is gone']);
});

test('a host that is not there, and an answer that nobody asked for', async () => {
  const net = new FakeNet();
  net.isUp = false;
  await assert.rejects(Host.open(net.urlOf(0), net.WebSocket), { name: 'Lost', code: 1001 });
  net.isUp = true;
  const host = await Host.open(net.urlOf(0), net.WebSocket);
  /** @type {number[]} */
  const codes = [];
  host.onLost(lost => codes.push(lost.code));
  const [socket] = net.sockets;
  socket.onmessage?.(new MessageEvent('message', { data: '{"ok":"rules"}' }));
  assert.deepEqual(codes, [1000]);
});

test('a seat is looked for from the preferred one on, then host by host', async () => {
  const net = new FakeNet({ hosts: [{ seats: 1, isUp: false }, { seats: 2 }, { seats: 1 }] });
  /** @type {Parameters<typeof sitDown>[0]} */
  const how = { urlOf: number => net.urlOf(number), hosts: 3, WebSocketClass: net.WebSocket, preferred: [], accepts: async () => true };
  /** @param {Partial<typeof how>} more */
  const at = async more => {
    const { number, seat, missed } = await sitDown({ ...how, ...more });
    return [number, seat, missed];
  };
  const { host, ...first } = await sitDown({ ...how, preferred: [{ host: 2, seat: 9 }] });
  assert.deepEqual(first, { number: 2, seat: 1, missed: 81 });
  host.close();
  assert.deepEqual(await at({ preferred: [{ host: 2, seat: 2 }] }), [2, 2, 0]);
  assert.deepEqual(await at({ preferred: [{ host: 2, seat: 2 }] }), [2, 1, 80]);
  assert.deepEqual(await at({ preferred: [{ host: 1, seat: 2 }] }), [3, 1, 0]);
  await assert.rejects(at({}), error => error instanceof NoSeat && error.why === 'full');
  net.cutAll();
  await assert.rejects(at({ accepts: async () => false }), { name: 'NoSeat', why: 'refused' });
  assert.equal(net.sockets.size, 0, 'seats that are of no use are left');
  net.hosts.forEach(host => { host.isUp = false; });
  await assert.rejects(at({}), { name: 'NoSeat', why: 'lost', message: 'the host is gone' });
});

test('commands take turns, and wait for the frames that are under way', async () => {
  const queue = new Queue();
  /** @type {string[]} */
  const events = [];
  /** @param {string} name */
  const frame = name => queue.frame(async () => { events.push(name); await later(); events.push(`${name} done`); });
  const frames = [frame('f1'), frame('f2')];
  assert.equal(frame('f3'), null);
  assert.equal(queue.framesUnderWay, 2);
  const first = queue.command(async () => {
    events.push('c1');
    assert.equal(frame('f6'), null, 'no frame beside a command');
    await later();
    throw new Error('no');
  });
  const second = queue.command(async () => { events.push('c2'); return 2; });
  assert.equal(frame('f4'), null);
  await assert.rejects(first, { message: 'no' });
  assert.equal(await second, 2);
  assert.equal(queue.isIdle, true);
  await Promise.all(frames);
  assert.deepEqual(events, ['f1', 'f2', 'f1 done', 'f2 done', 'c1', 'c2']);
  assert.notEqual(frame('f5'), null);
  await queue.idle();
  assert.equal(events.at(-1), 'f5 done');
});

test('a frame that fails makes way', async () => {
  const queue = new Queue(1);
  const frame = queue.frame(async () => { throw new Error('no'); });
  assert.ok(frame !== null);
  await assert.rejects(frame, { message: 'no' });
  assert.notEqual(queue.frame(async () => 1), null);
});
