'use strict';
/* Plays tough-cookie's own tests with this package's jar in the place of its own, and holds what becomes of them
   against the table of bindings/FOREIGN_TESTS.md.

   usage: node tough.js FOLDER            FOLDER has the sources of tough-cookie 4.1.4
          node tough.js FOLDER --tell     tells what becomes of each

   It plays the vows whose jar gets lines and is asked for its cookies. What asks for cookies as objects, stores or
   other modes raises `NotThere`, and is left out. `getCookies` is answered by the pairs of `getCookieString`, and a jar
   that is handed what `Cookie.parse` gave gets the line. Where there is no such folder it says that the tests are
   passed over. */
const assert = require('node:assert');
const fs = require('node:fs');
const Module = require('node:module');
const path = require('node:path');

const fonnalich = require('./index.js');

const FILES = ['cookie_jar_test', 'cookie_prefixes_test', 'ietf_test', 'regression_test', 'same_site_test'];
// Their cookies end in 2027: Debian leaves them out too.
const OF_THEIR_TIME = /: CHROMIUM001[67]$/;
const SUFFIXES = 'com\norg\nnet\nuk\nco.uk\nlocal\n';
const PAGE = path.join(__dirname, '../FOREIGN_TESTS.md');
// Of a topic that waits for its callback.
const MILLISECONDS = 5000;

// Of what `Cookie.parse` gives, the one thing that is there.
const LINE = Symbol('line');

/* What the vow that runs, or its topics, did. */
let done = { asked: false, lacked: false };

function noted(call) {
    try {
        done.asked = true;
        return call();
    } catch (error) {
        done.lacked ||= error instanceof fonnalich.NotThere;
        throw error;
    }
}

class StandIn extends fonnalich.CookieJar {
    constructor(store, options) {
        noted(() => super(store, { suffixes: SUFFIXES, ...options }));
        this.prefixSecurity = options?.prefixSecurity ?? 'silent';
        this.rejectPublicSuffixes = true;
    }

    get store() {
        return lack('store');
    }

    setCookieSync(line, ...words) {
        return noted(() => super.setCookieSync(line?.[LINE] ?? line, ...words));
    }

    getCookieStringSync(...words) {
        return noted(() => super.getCookieStringSync(...words));
    }

    getCookiesSync(...words) {
        const pairs = this.getCookieStringSync(...words).split('; ').filter((it) => it);
        return pairs.map((it) => ({ key: it.slice(0, it.indexOf('=')), value: it.slice(it.indexOf('=') + 1) }));
    }

    getCookies(url, options, callback) {
        const [given, called] = typeof options === 'function' ? [undefined, options] : [options, callback];
        const work = new Promise((resolve) => resolve(this.getCookiesSync(url, given)));
        return called ? void work.then((it) => called(null, it), called) : work;
    }
}

function lack(name) {
    return noted(() => { throw new fonnalich.NotThere(name); });
}

// What isn't of the calls that are played.
const OTHERS = ['clone', 'cloneSync', 'getSetCookieStrings', 'getSetCookieStringsSync', 'removeAllCookies',
    'removeAllCookiesSync', 'serialize', 'serializeSync', 'toJSON'];
for (const name of OTHERS) StandIn.prototype[name] = () => lack(name);

class Cookie {
    constructor() {
        lack('Cookie');
    }

    static parse(line) {
        const get = (_, name) => (name === LINE ? line : lack(`Cookie.${String(name)}`));
        return new Proxy({}, { get, has: get, set: get });
    }

    static fromJSON() {
        return lack('fromJSON');
    }

    static [Symbol.hasInstance]() {
        return lack('Cookie');
    }
}
class MemoryCookieStore {}

/* The module that the tests ask for. What isn't there tells so when it is used. */
const standIn = new Proxy({
    ...fonnalich, Cookie, CookieJar: StandIn, MemoryCookieStore,
    PrefixSecurityEnum: { SILENT: 'silent', STRICT: 'strict', DISABLED: 'unsafe-disabled' },
}, {
    get: (its, name) => its[name] ?? (() => lack(String(name))),
});

/* Of `vows` and `async` what the tests use. */
Object.assign(assert, {
    instanceOf: (it, kind) => assert(it instanceof kind, 'another kind'),
    isArray: (it) => assert(Array.isArray(it)),
    isEmpty: (it) => assert.strictEqual(it.length, 0),
    isNotNull: (it) => assert.notStrictEqual(it, null),
    isNull: (it) => assert.strictEqual(it, null),
    typeOf: (it, kind) => assert.strictEqual(typeof it, kind),
    isTrue: (it) => assert.strictEqual(it, true),
    isUndefined: (it) => assert.strictEqual(it, undefined),
    lengthOf: (it, length) => assert.strictEqual(it.length, length),
});
let batches = [];
// (of several batches `vows` takes the first)
const suite = { addBatch: (batch) => (batches.push(batch), suite), export: () => suite };
const series = async (tasks, back) => {
    const values = [];
    for (const task of tasks) {
        const [error, value] = await new Promise((resolve) => task((...told) => resolve(told)));
        if (error) return back(error, values);
        values.push(value);
    }
    return back(null, values);
};
const parallel = (tasks, back) => {
    const each = tasks.map((task) => new Promise((resolve, reject) => {
        task((error, value) => (error ? reject(error) : resolve(value)));
    }));
    Promise.all(each).then((values) => back(null, values), (error) => back(error));
};
const vows = { describe: () => suite };
const REPLACED = { vows, async: { parallel, series }, '../lib/cookie': standIn, assert };

/* What a topic gives: an error first, and values. What it puts into `self` those below it have too. */
function topicOf(topic, values, self) {
    if (typeof topic !== 'function') return [null, topic];
    return new Promise((resolve) => {
        self.callback = (...told) => resolve(told);
        setTimeout(resolve, MILLISECONDS, [new Error('it told nothing')]);
        try {
            const given = topic.apply(self, values);
            if (given instanceof Promise) given.then((it) => resolve([null, it]), (error) => resolve([error]));
            else if (given !== undefined) resolve([null, given]);
        } catch (error) {
            resolve([error]);
        }
    });
}

async function failureOf(vow, [error, ...values]) {
    try {
        if (error && vow.length < 2) throw error;
        await vow(...(vow.length < 2 ? values : [error, ...values]));
        return null;
    } catch (thrown) {
        done.lacked ||= thrown instanceof fonnalich.NotThere;
        return thrown;
    }
}

/* Plays a context below a name: pushes the name of each vow, and how it failed, or null. */
async function play(context, name, values, before, played, outer) {
    done = { ...before };
    const self = Object.create(outer);
    const given = 'topic' in context ? await topicOf(context.topic, values, self) : [null, ...values];
    const after = done;
    for (const [key, it] of Object.entries(context).filter(([key]) => key !== 'topic')) {
        const below = `${name}: ${key}`;
        if (typeof it === 'function') {
            done = { ...after };
            const failure = await failureOf(it, given);
            if (done.asked && !done.lacked) played.push([below, failure]);
        } else {
            await play(it, below, 'topic' in context ? [...given.slice(1), ...values] : values, after, played, self);
        }
    }
}

async function playedOf(folder) {
    const load = Module._load;
    // (of a topic that throws later: it tells nothing)
    process.on('uncaughtException', () => {});
    Module._load = (name, ...more) => REPLACED[name] ?? load(name, ...more);
    const played = [];
    for (const file of FILES) {
        batches = [];
        require(path.resolve(folder, 'test', file));
        for (const it of batches) await play(it, file, [], { asked: false, lacked: false }, played, {});
    }
    Module._load = load;
    return played.filter(([name]) => !OF_THEIR_TIME.test(name));
}

/* The page's counts of tests that pass and that fail, and the names of the latter: one that ends in `..` stands for
   all that begin so. */
function table() {
    const section = fs.readFileSync(PAGE, 'utf8').split('\n## tough-cookie\n')[1].split('\n## ')[0];
    const names = [...section.matchAll(/^\| `(.*?)` \| \S.* \|$/gm)].map((it) => it[1]);
    const [, passing, failing] = section.match(/^(\d+) pass and (\d+) fail\./m);
    return [Number(passing), Number(failing), names];
}

/* The rows of the page that a name falls under. */
function rowsOf(names, name) {
    return names.filter((it) => (it.endsWith('..') ? name.startsWith(it.slice(0, -2)) : it === name));
}

function hold(played) {
    const [passing, count, names] = table();
    const failing = played.filter(([, failure]) => failure).map(([name]) => name);
    const said = played.map(([name]) => name).filter((name) => rowsOf(names, name).length);
    assert.deepStrictEqual(failing, said);
    assert.deepStrictEqual(names.filter((it) => !failing.some((name) => rowsOf([it], name).length)), []);
    assert.deepStrictEqual([played.length - failing.length, failing.length], [passing, count]);
}

async function main([folder, way]) {
    if (!folder || !fs.existsSync(path.join(folder, 'test', 'ietf_test.js'))) {
        console.log("skipped: tough-cookie's tests: TOUGH_COOKIE names no folder of its sources");
        return;
    }
    const played = await playedOf(folder);
    if (way === '--tell') {
        for (const [name, failure] of played) console.log(failure ? 'fails' : 'passes', name, failure?.message ?? '');
        return;
    }
    hold(played);
}

main(process.argv.slice(2)).then(() => process.exit(0), (error) => {
    console.error(error);
    process.exit(1);
});
