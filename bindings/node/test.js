'use strict';
/* The tests of index.js, by `node --test test.js`, over the addon that `build` makes. */
const assert = require('node:assert/strict');
const { execFileSync } = require('node:child_process');
const fs = require('node:fs');
const http = require('node:http');
const path = require('node:path');
const { describe, test } = require('node:test');
const { setFlagsFromString } = require('node:v8');
const { runInNewContext } = require('node:vm');
const { Worker } = require('node:worker_threads');

const fonnalich = require('./index.js');
const { CookieJar, LineRefused, NotThere, Refused, Rules } = fonnalich;
const { RFC, TOUGH } = require('./rows.js');

const SUFFIXES = 'com\norg\nco.uk\n';
const THEN = new Date(Date.UTC(2024, 0, 1));
const URL_ASKED = 'https://shop.com/';

function jarOf(options) {
    return new CookieJar(null, { suffixes: SUFFIXES, ...options });
}

/* The header that a row gets, and the codes of the lines that were refused. */
function asked([, lines, url, , { of, options, now = 0 } = {}]) {
    const jar = jarOf(of);
    const codes = lines.flatMap(([from, line, own]) => {
        try {
            jar.setCookieSync(line, from, { now: THEN, ...options, ...own });
            return [];
        } catch (error) {
            assert.ok(error instanceof LineRefused, error);
            return [error.code];
        }
    });
    return [jar.getCookieStringSync(url, { ...options, now: +THEN + 1000 * now }), codes];
}

function row(it) {
    const [section, lines, url, wanted, { here, why, code } = {}] = it;
    test(`${section}: ${lines.map(([, line]) => line).join(' | ')} for ${url}`, () => {
        const [header, codes] = asked(it);
        assert.equal(header, here ?? wanted);
        assert.equal(why === undefined, here === undefined || here === wanted);
        if (code) assert.deepEqual(codes, [code]);
    });
}

describe('RFC 6265', () => RFC.forEach(row));
describe("tough-cookie's README", () => TOUGH.forEach(row));

test('what became of a line', () => {
    const jar = jarOf();
    assert.equal(jar.setCookieSync('a=1; Max-Age=9', URL_ASKED), 'Inserted');
    assert.equal(jar.setCookieSync('a=2', URL_ASKED), 'UpdatedExisting');
    assert.equal(jar.setCookieSync('a=; Max-Age=0', URL_ASKED), 'ExpiredExisting');
    assert.equal(jar.setCookieSync('a=; Max-Age=0', URL_ASKED), 'Expired');
    assert.equal(jar.setCookieSync('b=1; Domain=com', URL_ASKED, { ignoreError: true }), undefined);
    assert.equal(jar.setCookieSync('__Host-b=1', URL_ASKED), undefined);
});

test('a promise where no callback is given', async () => {
    const jar = jarOf();
    assert.equal(await jar.setCookie('a=1; Max-Age=9', URL_ASKED), 'Inserted');
    assert.equal(await jar.getCookieString(new URL(URL_ASKED)), 'a=1');
    const again = await CookieJar.deserialize(await jar.serialize(), null, { suffixes: SUFFIXES });
    assert.equal(again.getCookieStringSync(URL_ASKED), 'a=1');
    await jar.removeAllCookies();
    assert.equal(await jar.getCookieString(URL_ASKED, {}), '');
    await assert.rejects(jar.setCookie('a=1; Domain=com', URL_ASKED), { name: 'LineRefused', code: 'PublicSuffix' });
    await assert.rejects(jar.getCookieString('shop'), { name: 'Refused', code: 'Url', number: -6 });
});

/* What a call tells its callback, which it tells once and later. */
function told(call) {
    return new Promise((resolve) => {
        let isBack = false;
        const back = call((...words) => resolve([isBack, back, ...words]));
        isBack = true;
    });
}

test('a callback', async () => {
    const jar = jarOf();
    const set = await told((back) => jar.setCookie('a=1', URL_ASKED, back));
    assert.deepEqual(set, [true, undefined, null, 'Inserted']);
    const header = await told((back) => jar.getCookieString(URL_ASKED, { now: new Date() }, back));
    assert.deepEqual(header, [true, undefined, null, 'a=1']);
    const [, , error, ...more] = await told((back) => jar.setCookie('a', URL_ASKED, {}, back));
    assert.deepEqual([error.name, error.code, more], ['LineRefused', 'Parse', []]);
    assert.throws(() => jar.setCookie('a=1', URL_ASKED, {}, 'back'), TypeError);
});

test('errors by name', () => {
    const jar = jarOf({ prefixSecurity: 'strict' });
    const refused = (line, url, code) => {
        assert.throws(() => jar.setCookieSync(line, url), { name: 'LineRefused', code });
    };
    refused('', URL_ASKED, 'Parse');
    refused('a=1\nb=2', URL_ASKED, 'ByControl');
    refused('a=\u0001', URL_ASKED, 'ByControl');
    refused(`a=${'x'.repeat(4096)}`, URL_ASKED, 'ByTooLong');
    refused('__secure-a=1', URL_ASKED, 'BySecurePrefix');
    refused('__host-a=1; Secure', `${URL_ASKED}x/y`, 'ByHostPrefix');
    refused('a=1; Domain=com', URL_ASKED, 'PublicSuffix');
    for (const line of ['a=1', '', 'a=1\nb=2']) {
        assert.throws(() => jar.setCookieSync(line, 'shop.com'), { name: 'Refused', code: 'Url' });
    }
    assert.throws(() => jar.getCookieStringSync(URL_ASKED, { now: 1e15 }), { name: 'Refused', code: 'Moment' });
    assert.throws(() => jar.getCookieStringSync(URL_ASKED, { now: 'noon' }), TypeError);
    assert.throws(() => jar.getCookieStringSync(undefined), TypeError);
    assert.throws(() => jarOf({ rules: 1 << 20 }), { name: 'Refused', code: 'Rules' });
    for (const rules of ['browser', 5.5, NaN, true]) {
        assert.throws(() => jarOf({ rules }), { name: 'TypeError', message: /^options\.rules is a number/ });
    }
    assert.throws(() => jarOf({ suffixes: undefined }), TypeError);
    assert.throws(() => CookieJar.deserializeSync('no', null, { suffixes: SUFFIXES }), { code: 'Saved' });
    assert.ok(new Refused(-6) instanceof fonnalich.FonnalichError);
});

/* The rows of section 5.8.3, step 1, of the draft, and of its section 5.2 on sites. */
test('what starts a request', async () => {
    const jar = jarOf();
    for (const line of ['s=1; SameSite=Strict', 'l=2; SameSite=Lax', 'n=3; SameSite=None; Secure', 'd=4']) {
        jar.setCookieSync(line, URL_ASKED, { now: THEN });
    }
    const asked = (options) => jar.getCookieStringSync(URL_ASKED, { now: THEN, ...options });
    for (const [options, header] of [
        [{}, 's=1; l=2; n=3; d=4'],
        [{ navigates: true }, 's=1; l=2; n=3; d=4'],
        [{ initiator: 'https://a.shop.com/' }, 's=1; l=2; n=3; d=4'],
        [{ initiator: 'http://shop.com/' }, 'n=3; d=4'],
        [{ initiator: 'https://evil.org/' }, 'n=3; d=4'],
        [{ initiator: new URL('https://evil.org/'), navigates: true }, 'l=2; n=3; d=4'],
        [{ initiator: 'data:,' }, 'n=3; d=4'],
        [{ sameSiteContext: 'strict' }, 's=1; l=2; n=3; d=4'],
        [{ sameSiteContext: 'lax' }, 'l=2; n=3; d=4'],
        [{ sameSiteContext: 'none' }, 'n=3; d=4'],
    ]) {
        assert.equal(asked(options), header, JSON.stringify(options));
    }
    assert.equal(await jar.getCookieString(URL_ASKED, { now: THEN, initiator: 'https://evil.org/' }), 'n=3; d=4');
    const byDefault = jarOf({ rules: Rules.LAX_BY_DEFAULT });
    byDefault.setCookieSync('d=4', URL_ASKED, { now: THEN });
    for (const [navigates, header] of [[false, ''], [true, 'd=4']]) {
        const options = { now: THEN, initiator: 'https://evil.org/', navigates };
        assert.equal(byDefault.getCookieStringSync(URL_ASKED, options), header);
    }
    for (const page of ['', 'no url']) {
        assert.throws(() => asked({ initiator: page }), { name: 'Refused', code: 'Url' });
    }
    assert.throws(() => asked({ initiator: 1 }), TypeError);
    assert.throws(() => asked({ sameSiteContext: 'toString' }), TypeError);
    assert.throws(() => asked({ sameSiteContext: 'lax', initiator: URL_ASKED }), TypeError);
});

/* The rows of section 5.7 of the draft. */
test('what an answer may set, by what started its request', async () => {
    const lines = ['s=1; SameSite=Strict', 'l=2; SameSite=Lax', 'n=3; SameSite=None', 'd=4', 'g=5; SameSite=garbage'];
    const [put, site, none] = ['Inserted', 'ByCrossSite', 'ByNoneLacksSecure'];
    const evil = 'https://evil.org/';
    for (const [rules, options, ends] of [
        [Rules.BROWSER, {}, [put, put, put, put, put]],
        [Rules.BROWSER, { initiator: 'https://a.shop.com/' }, [put, put, put, put, put]],
        [Rules.BROWSER, { initiator: 'http://shop.com/' }, [site, site, put, put, put]],
        [Rules.NONE, { initiator: evil }, [site, site, put, put, put]],
        [Rules.BROWSER, { initiator: evil, navigates: true }, [put, put, put, put, put]],
        [Rules.LAX_BY_DEFAULT, { initiator: evil }, [site, site, put, site, site]],
        [Rules.NONE_NEEDS_SECURE, { initiator: evil }, [site, site, none, put, put]],
        [Rules.NONE_NEEDS_SECURE, { initiator: evil, navigates: true }, [put, put, none, put, put]],
        [Rules.NONE_NEEDS_SECURE, {}, [put, put, none, put, put]],
        [Rules.BROWSER, { sameSiteContext: 'strict' }, [put, put, put, put, put]],
        [Rules.BROWSER, { sameSiteContext: 'lax' }, [put, put, put, put, put]],
        [Rules.BROWSER, { sameSiteContext: 'none' }, [site, site, put, put, put]],
    ]) {
        const jar = jarOf({ rules });
        const found = lines.map((line) => {
            try {
                return jar.setCookieSync(line, URL_ASKED, { now: THEN, ...options });
            } catch (error) {
                assert.ok(error instanceof LineRefused, error);
                return error.code;
            }
        });
        assert.deepEqual(found, ends, JSON.stringify(options));
    }
    const jar = jarOf();
    jar.setCookieSync('s=0', URL_ASKED, { now: THEN });
    await assert.rejects(jar.setCookie('s=9; SameSite=Strict', URL_ASKED, { now: THEN, initiator: evil }),
        { code: 'ByCrossSite' });
    assert.equal(jar.setCookieSync('s=9; SameSite=Lax', URL_ASKED, { initiator: evil, ignoreError: true }), undefined);
    assert.equal(jar.getCookieStringSync(URL_ASKED, { now: THEN }), 's=0');
    for (const page of ['', 'no url']) {
        const options = { now: THEN, initiator: page };
        assert.throws(() => jar.setCookieSync('a=1', URL_ASKED, options), { name: 'Refused', code: 'Url' });
    }
});

test('what tough-cookie has and this has not raises by its name', () => {
    const jar = jarOf();
    const absent = (call, what) => assert.throws(call, (error) => error instanceof NotThere && error.what === what);
    absent(() => jar.getCookies(URL_ASKED), 'CookieJar.getCookies');
    absent(() => jar.getCookiesSync(URL_ASKED), 'CookieJar.getCookiesSync');
    absent(() => jar.getSetCookieStringsSync(URL_ASKED), 'CookieJar.getSetCookieStringsSync');
    absent(() => jar.cloneSync(), 'CookieJar.cloneSync');
    absent(() => jar.setCookieSync({ key: 'a' }, URL_ASKED), 'a Cookie');
    absent(() => jar.setCookieSync('a', URL_ASKED, { loose: true }), 'options.loose = true');
    absent(() => jar.getCookieStringSync(URL_ASKED, { expire: false }), 'options.expire = false');
    absent(() => new CookieJar({}, { suffixes: SUFFIXES }), 'a Store');
    absent(() => jarOf({ looseMode: true }), 'options.looseMode = true');
    absent(() => jarOf({ rejectPublicSuffixes: false }), 'options.rejectPublicSuffixes = false');
    absent(() => jarOf({ prefixSecurity: 'unsafe-disabled' }), 'options.prefixSecurity = unsafe-disabled');
    absent(() => fonnalich.Cookie.parse('a=1'), 'Cookie.parse');
    absent(() => fonnalich.parseDate(''), 'parseDate');
    assert.equal(jar.setCookieSync('a=1', URL_ASKED, { loose: false, expire: true, secure: undefined }), 'Inserted');
});

/* What curl 7.88.1 wrote of a site, and lines that are refused behind it. */
test('a cookies.txt', () => {
    const rows = ['# Netscape HTTP Cookie File', '', '.shop.com\tTRUE\t/a/\tFALSE\t2795896097\tlang\ten',
        'shop.com\tFALSE\t/\tFALSE\t0\tsid\t31d4', '#HttpOnly_shop.com\tFALSE\t/\tTRUE\t2147169600\tuser\tann'];
    const jar = jarOf();
    const more = ['shop.com\tFALSE\t/\tFALSE\t1\tgone\t', 'no row', 'shop.com\tFALSE\t/\tFALSE\t0\ta\tx\u0001'];
    assert.deepEqual(jar.importCookiesTxt([...rows, ...more].join('\n'), { now: THEN }), {
        taken: 3, expired: 1, refused: [{ line: 7, code: 'Fields' }, { line: 8, code: 'Control' }],
    });
    assert.equal(jar.getCookieStringSync(`${URL_ASKED}a/b`, { now: THEN }), 'lang=en; sid=31d4; user=ann');
    assert.equal(jar.exportCookiesTxt({ now: THEN }), rows.join('\n') + '\n');
    const lasting = jar.exportCookiesTxt({ now: THEN, sessions: false, reader: 'wget' });
    assert.equal(lasting, [...rows.slice(0, 3), rows[4].slice(10)].join('\n') + '\n');
    const python = jar.exportCookiesTxt({ now: THEN, reader: 'python' });
    assert.equal(python, rows.join('\n').replace('\t0\tsid', '\t\tsid') + '\n');
    const again = jarOf();
    assert.equal(again.importCookiesTxt(Buffer.from(python), { now: THEN }).taken, 3);
    assert.deepEqual(again.heldCookies({ now: THEN }), jar.heldCookies({ now: THEN }));
    assert.throws(() => jar.exportCookiesTxt({ reader: 'lynx' }), TypeError);
    assert.throws(() => jar.importCookiesTxt(undefined), TypeError);
    assert.throws(() => jar.importCookiesTxt('', { now: 1e15 }), { name: 'Refused', code: 'Moment' });
});

test('a saved text has what lives on', () => {
    const jar = jarOf();
    jar.setCookieSync('a=1; Max-Age=60', URL_ASKED, { now: THEN });
    jar.setCookieSync('b=2', URL_ASKED, { now: THEN });
    const saved = jar.serializeSync({ now: THEN });
    assert.equal(JSON.parse(JSON.stringify({ jar })).jar, jar.serializeSync());
    for (const [later, wanted] of [[59, 'a=1'], [61, '']]) {
        const now = +THEN + 1000 * later;
        const loaded = CookieJar.fromJSON(Buffer.from(saved), null, { suffixes: Buffer.from(SUFFIXES), now });
        assert.equal(loaded.getCookieStringSync(URL_ASKED, { now }), wanted);
    }
    jar.restart({ now: THEN });
    assert.equal(jar.getCookieStringSync(URL_ASKED, { now: THEN }), 'a=1');
});

// A saved text of another hand: the cookie's value has a line break and a further field of the request.
test('a header is one line', () => {
    const jar = jarOf();
    for (const line of ['a=1; Max-Age=60', 'b=2; Max-Age=60']) jar.setCookieSync(line, URL_ASKED, { now: THEN });
    const saved = jar.serializeSync({ now: THEN }).replace('a=1', String.raw`a=1\r\nX-Evil: 1`);
    const { NONE, BROWSER, CONTROL } = Rules;
    for (const rules of [BROWSER, CONTROL, NONE, BROWSER & ~CONTROL]) {
        const loaded = CookieJar.fromJSON(saved, null, { suffixes: SUFFIXES, now: THEN, rules });
        const header = () => loaded.getCookieStringSync(URL_ASKED, { now: THEN });
        if (rules & CONTROL) assert.equal(header(), 'b=2');
        else assert.throws(header, { name: 'Refused', code: 'Line' });
    }
});

test('a header longer than the room of a call', () => {
    const jar = jarOf();
    const pairs = Array.from({ length: 9 }, (_, i) => `n${i}=${String(i).repeat(1000)}`);
    pairs.forEach((pair) => jar.setCookieSync(pair, URL_ASKED));
    assert.equal(jar.getCookieStringSync(URL_ASKED), pairs.join('; '));
});

test('rules', () => {
    const jar = jarOf({ rules: Rules.BROWSER | Rules.SECURE_WINS });
    assert.throws(() => jar.setCookieSync('a=1; SameSite=None', 'http://shop.com/'), { code: 'ByLacksSecure' });
    assert.equal(jarOf({ rules: Rules.NONE }).setCookieSync('a=1; Secure', 'http://shop.com/'), 'Inserted');
});

// IDNA maps U+1E9E to ss, and since Unicode 15.1 to U+00DF: whichever Node goes by, it connects there.
test('the host is the one that Node reads', () => {
    const jar = jarOf();
    for (const host of ['fass.de', 'xn--fa-hia.de']) jar.setCookieSync(`at=${host}; Secure`, `https://${host}/`);
    for (const url of ['https://fa\u1e9e.de/', 'https://FA\u00df.de/', 'https://fass.de\\x.evil.org/']) {
        assert.equal(jar.getCookieStringSync(url), `at=${new URL(url).hostname}`, url);
        assert.equal(jar.getCookieStringSync(new URL(url)), `at=${new URL(url).hostname}`, url);
    }
    for (const host of ['fass.de', 'xn--fa-hia.de']) {
        const initiator = 'https://fa\u1e9e.de/';
        jar.setCookieSync(`strict=${host}; Secure; SameSite=Strict`, `https://${host}/`);
        const header = jar.getCookieStringSync(`https://${host}/`, { initiator });
        assert.equal(header.includes('strict'), new URL(initiator).hostname === host, host);
    }
});

// Another thread may write there meanwhile.
test('bytes that threads share are copied', () => {
    const shared = new Uint8Array(new SharedArrayBuffer(64)).fill(35);
    const row = Buffer.from('shop.com\tFALSE\t/\tFALSE\t0\ta\t1\n');
    shared.set(row);
    const jar = jarOf();
    assert.equal(jar.importCookiesTxt(shared.subarray(0, row.length)).taken, 1);
    assert.equal(jar.getCookieStringSync('http://shop.com/'), 'a=1');
});

test('a jar that is closed', () => {
    const jar = jarOf();
    jar.close();
    assert.throws(() => jar.getCookieStringSync(URL_ASKED), { name: 'TypeError', message: /closed.*begin another/ });
    for (const line of ['a=1', '', 'a=1\nb=2']) {
        assert.throws(() => jar.setCookieSync(line, URL_ASKED), TypeError);
    }
    assert.throws(() => jar.close(), TypeError);
});

test('a jar that nobody holds is ended', async () => {
    setFlagsFromString('--expose-gc');
    const collect = runInNewContext('gc');
    collect();
    await new Promise(setImmediate);
    const before = fonnalich.living();
    for (let i = 0; i < 50; i++) jarOf();
    jarOf().close();
    assert.ok(fonnalich.living() >= before + 1);
    for (let i = 0; i < 20 && fonnalich.living() > before; i++) {
        collect();
        await new Promise(setImmediate);
    }
    assert.ok(fonnalich.living() <= before);
});

const WORKER = `
const { parentPort, workerData } = require('node:worker_threads');
const { CookieJar, living } = require(workerData.index);
const jar = new CookieJar(null, { suffixes: 'com' });
for (let i = 0; i < 2000; i++) jar.setCookieSync('a=' + workerData.name + i, 'https://shop.com/');
parentPort.postMessage([living(), jar.getCookieStringSync('https://shop.com/')]);
`;

test('each worker has jars of its own, and ends them', async () => {
    const jar = jarOf();
    jar.setCookieSync('a=main', URL_ASKED);
    const found = ['one', 'two', 'three'].map((name) => new Promise((resolve, reject) => {
        const workerData = { name, index: path.join(__dirname, 'index.js') };
        const worker = new Worker(WORKER, { eval: true, workerData });
        const heard = [];
        worker.on('message', (told) => heard.push(...told)).on('error', reject);
        worker.on('exit', (status) => resolve([name, status, ...heard]));
    }));
    assert.deepEqual(await Promise.all(found), ['one', 'two', 'three'].map((name) => [name, 0, 1, `a=${name}1999`]));
    assert.equal(jar.getCookieStringSync(URL_ASKED), 'a=main');
});

/* A site on loopback that sets a line at /, and answers with the bytes of the header at each other path. */
function served(line) {
    const site = http.createServer((request, response) => {
        if (request.url === '/') response.setHeader('Set-Cookie', Buffer.from(line).toString('latin1'));
        response.end(Buffer.from(request.headers.cookie ?? '', 'latin1'));
    });
    return new Promise((resolve) => site.listen(0, '127.0.0.1', () => resolve(site)));
}

function got(url, headers) {
    return new Promise((resolve, reject) => {
        http.get(url, { headers }, (response) => {
            const chunks = [];
            response.on('data', (chunk) => chunks.push(chunk));
            response.on('end', () => resolve([response.headers['set-cookie'], Buffer.concat(chunks).toString()]));
        }).on('error', reject);
    });
}

test('a site gets the bytes that it set, by http and by fetch', async () => {
    const site = await served('user=J\u00fcrgen \u20ac; HttpOnly');
    const url = `http://127.0.0.1:${site.address().port}/`;
    try {
        const jar = jarOf();
        const [lines] = await got(url, {});
        await Promise.all(lines.map((line) => jar.setCookie(line, url)));
        assert.equal((await got(`${url}x`, { Cookie: await jar.getCookieString(url) }))[1], 'user=J\u00fcrgen \u20ac');
        const other = jarOf();
        const answer = await fetch(url);
        for (const line of answer.headers.getSetCookie()) await other.setCookie(line, url);
        const back = await fetch(`${url}x`, { headers: { Cookie: await other.getCookieString(url) } });
        assert.equal(await back.text(), 'user=J\u00fcrgen \u20ac');
    } finally {
        site.closeAllConnections();
        site.close();
    }
});

test('the version is that of the header file', () => {
    const header = fs.readFileSync(path.join(__dirname, '../c/fonnalich.h'), 'utf8');
    const [, version] = /FONNALICH_VERSION "([\d.]+)"/.exec(header);
    assert.deepEqual([fonnalich.version, require('./package.json').version], [version, version]);
});

// (README: bindings/README.md js 1, which runs at the repository's top)
test("the page's block", async () => {
    const [, block] = /```js\n([^]*?)```/.exec(fs.readFileSync(path.join(__dirname, '../README.md'), 'utf8'));
    const Async = (async () => {}).constructor, before = process.cwd();
    process.chdir(path.join(__dirname, '../..'));
    const sent = `${block}\nreturn [header, again.getCookieStringSync('https://shop.com/')];`;
    assert.deepEqual(await new Async('require', sent)(require), ['cart=3', 'cart=3']);
    process.chdir(before);
});

// The lines of RFC 6265, section 3.1, and some more.
test('what a jar holds', () => {
    const jar = jarOf({ rules: Rules.NONE });
    const moment = { now: THEN };
    const lines = ['SID=31d4d96e; Path=/; Secure; HttpOnly', 'lang=en-US; Path=/; Domain=shop.com; Max-Age=60',
        'a=b=c; Path=/x; SameSite=Lax', 'd=; Secure; Partitioned; SameSite=None'];
    for (const line of lines) jar.setCookieSync(line, URL_ASKED, moment);
    const held = jar.heldCookies(moment);
    assert.deepEqual(held.map((it) => [it.domain, it.path, it.key, it.value]), [['shop.com', '/', 'SID', '31d4d96e'],
        ['shop.com', '/', 'lang', 'en-US'], ['shop.com', '/', 'd', ''], ['shop.com', '/x', 'a', 'b=c']]);
    assert.deepEqual(held.map((it) => [it.hostOnly, it.secure, it.httpOnly, it.partitioned, it.sameSite]), [
        [true, true, true, false, undefined], [false, false, false, false, undefined],
        [true, true, false, true, 'none'], [true, false, false, false, 'lax']]);
    assert.deepEqual(held.map((it) => it.expires), [undefined, new Date(+THEN + 60000), undefined, undefined]);
    assert.deepEqual(jar.heldCookie('shop.com', '/x', 'a', moment), held[3]);
    assert.equal(jar.heldCookie('shop.com', '/', 'lang', { now: +THEN + 60000 }), undefined);
    assert.equal(jar.removeCookie('shop.com', '/', 'a'), undefined);
    assert.deepEqual(jar.removeCookie('shop.com', '/x', 'a'), held[3]);
    assert.equal(jar.heldCookies({ now: +THEN + 60000 }).length, 2);
    assert.throws(() => jar.heldCookie('shop.com', '/', Buffer.from([255])), { code: 'Text' });
    assert.throws(() => jar.heldCookie('shop.com', '/'), TypeError);
    jar.removeAllCookiesSync();
    assert.deepEqual(jar.heldCookies(moment), []);
});

test('many that a jar holds', () => {
    const jar = jarOf();
    for (let i = 0; i < 300; i++) jar.setCookieSync(`n${i}=${'x'.repeat(i)}`, URL_ASKED, { now: THEN });
    const held = jar.heldCookies({ now: THEN });
    assert.equal(held.length, 300);
    assert.ok(held.every((it, i) => it.key === `n${i}` && it.value.length === i));
});

test('a list that jars share', () => {
    const suffixes = new fonnalich.List(SUFFIXES);
    const jars = Array.from({ length: 100 }, () => new CookieJar(null, { suffixes }));
    jars.push(CookieJar.deserializeSync('[]', null, { suffixes }));
    suffixes.close();
    for (const jar of jars) {
        assert.throws(() => jar.setCookieSync('a=1; Domain=co.uk', 'https://a.co.uk/'), { code: 'PublicSuffix' });
        jar.close();
    }
    assert.throws(() => new CookieJar(null, { suffixes }), TypeError);
    const HINT = /readFileSync\(path\)$/;
    // (of a file that is there the name has to be a rule: Node's own program, in its folder)
    const before = process.cwd();
    process.chdir(path.dirname(process.execPath));
    assert.throws(() => new fonnalich.List(path.basename(process.execPath)), { code: 'NoRule', message: HINT });
    process.chdir(before);
    for (const text of ['', '// com\n', 'suffixes.dat', 'list.txt', 'LIST.DAT']) {
        assert.throws(() => new fonnalich.List(text), { name: 'Refused', code: 'NoRule', message: HINT });
        assert.throws(() => jarOf({ suffixes: text }), { code: 'NoRule' });
    }
    assert.throws(() => new fonnalich.List('lists/suffixes.dat'), { code: 'List', message: HINT });
    assert.throws(() => new fonnalich.List(' suffixes.dat\n'), { code: 'NoRule' });
    new fonnalich.List('suffixes.dat\ncom\n').close();
});
