'use strict';
/* Cookies of an HTTP client (RFC 6265), by the library fonnalich, whose sources are proved: a jar of tough-cookie's
   shape.

   The addon is fonnalich.node beside this file, else that of out/, or the file FONNALICH_NODE. */
const fs = require('node:fs');
const path = require('node:path');

const BESIDE = path.join(__dirname, 'fonnalich.node');
const addon = require(process.env.FONNALICH_NODE ? path.resolve(process.env.FONNALICH_NODE)
    : fs.existsSync(BESIDE) ? BESIDE : path.join(__dirname, '../../out/fonnalich.node'));

if (!addon.processor()) throw new Error('fonnalich: this processor lacks SSE 4.2, which the library needs');

const [SAVE, RESTART, RULES, HELD, CLEAR] = [5, 6, 7, 11, 12];
const [KEEP_LIST, CLIENT, LOAD_BY, IMPORT, EXPORT, EXPORT_LASTING] = [15, 16, 17, 21, 22, 25];
const [GET, REMOVE] = [0, 1];
/* What starts a request, and the word for the header of one that is started so. */
const [BY_USER, BY_PAGE, BY_NAVIGATION] = [0, 1, 2];
const HEADERS = [4, 13, 14];
const [MEMORY, STOPPED] = [-1, -100];
const NONE = Buffer.alloc(0);

/* The rules of browsers, of which a jar takes a sum. Some browsers have LAX_BY_DEFAULT and NONE_NEEDS_SECURE: BROWSER
   has neither. No browser has SECURE_WINS. */
const Rules = Object.freeze({
    NONE: 0, CONTROL: 1, TOO_LONG: 2, SECURE_PREFIX: 4, HOST_PREFIX: 8, SECURE_FROM_HTTP: 16, SECURE_OVERLAY: 32,
    LONG_ATTRIBUTES: 64, DATES: 128, LONG_LIVES: 256, BROWSER: 511, SECURE_WINS: 512,
    LAX_BY_DEFAULT: 1024, NONE_NEEDS_SECURE: 2048,
});

const REFUSALS = {
    '-2': 'Word', '-3': 'NoClient', '-4': 'List', '-5': 'Moment', '-6': 'Url', '-7': 'Saved', '-8': 'Year',
    '-9': 'Read', '-17': 'Text', '-20': 'Rules', '-21': 'Line', '-24': 'NoRule', '-25': 'NoList',
};
const [NO_LIST, URL_NUMBER, NO_RULE] = [-4, -6, -24];
const HINT = 'a list is the text of one: hand in what the file holds, fs.readFileSync(path)';
const ENDS = {
    0: 'Inserted', 1: 'ExpiredExisting', 2: 'UpdatedExisting', 3: 'NotText', 4: 'HostPrefix', 10: 'NonHttpScheme',
    11: 'NonRelativeScheme', 12: 'DomainMismatch', 13: 'Expired', 14: 'Parse', 15: 'PublicSuffix', 20: 'ByControl',
    21: 'ByTooLong', 22: 'BySecurePrefix', 23: 'ByHostPrefix', 24: 'BySecureFromHttp', 25: 'BySecureOverlay',
    26: 'ByLacksSecure', 27: 'ByCrossSite', 28: 'ByNoneLacksSecure',
};
const ROW_CAUSES = {
    40: 'NotText', 41: 'Fields', 42: 'NoDomain', 43: 'Flag', 44: 'Path', 45: 'Expiry', 46: 'EmptyName', 47: 'Domain',
    48: 'Control', 49: 'Pair', 50: 'HostPrefix',
};
const READERS = ['curl', 'wget', 'python'];
const TAKEN = ['Inserted', 'ExpiredExisting', 'UpdatedExisting', 'Expired'];
const OF_PREFIX = ['HostPrefix', 'BySecurePrefix', 'ByHostPrefix'];

class FonnalichError extends Error {
    constructor(code, message) {
        super(message);
        this.name = new.target.name;
        this.code = code;
    }
}

/* A call was refused; `number` is that of the header file, and `code` its name. The jar is as it was. */
class Refused extends FonnalichError {
    constructor(number) {
        const hint = number === NO_LIST || number === NO_RULE ? `: ${HINT}` : '';
        super(REFUSALS[number] ?? String(number), `refused: ${REFUSALS[number] ?? number}${hint}`);
        this.number = number;
    }
}

/* A line was refused; `code` says why. The jar is as it was. */
class LineRefused extends FonnalichError {
    constructor(end) {
        super(end, `the line was refused: ${end}`);
    }
}

/* Memory was refused. The jar is as it was. */
class OutOfMemory extends FonnalichError {
    constructor() {
        super('Memory', 'memory was refused');
    }
}

/* tough-cookie has it, and this hasn't. */
class NotThere extends FonnalichError {
    constructor(what, instead) {
        super('NotThere', `${what} isn't there${instead ? `: ${instead}` : ''}`);
        this.what = what;
    }
}

/* What options of tough-cookie mean nothing here but by these values. */
const OF_JAR = { allowSpecialUseDomain: [true], looseMode: [false], rejectPublicSuffixes: [true] };
const OF_CALL = { allPaths: [false], expire: [true], loose: [false], secure: [], sort: [true] };
/* What tough-cookie's sameSiteContext says that started a request. Of the page it tells no more: so it is one of no
   site, as a `data:` URL. */
const CONTEXTS = { strict: BY_USER, lax: BY_NAVIGATION, none: BY_PAGE };
const OF_NO_SITE = Buffer.from('data:,');

function optionsOf(given, absent) {
    for (const [name, meant] of Object.entries(absent)) {
        if (given?.[name] !== undefined && !meant.includes(given[name])) {
            throw new NotThere(`options.${name} = ${given[name]}`);
        }
    }
    return given ?? {};
}

function bytesOf(text, what) {
    if (typeof text === 'string') return Buffer.from(text);
    // (other threads may write to what is shared while the library reads it)
    if (text instanceof Uint8Array && text.buffer instanceof SharedArrayBuffer) return Buffer.from(text);
    if (text instanceof Uint8Array) return Buffer.from(text.buffer, text.byteOffset, text.byteLength);
    throw new TypeError(`${what} is neither a string nor bytes`);
}

/* The whole second of a moment: a Date, or milliseconds since 1970; none is now. */
function secondOf(moment) {
    const second = Math.floor(Number(moment ?? Date.now()) / 1000);
    if (!Number.isSafeInteger(second)) throw new TypeError('options.now is no moment');
    return second;
}

/* The text of a URL as Node reads it, so that the library reads the host that Node connects to: of `https://faẞ.de/`
   some read fass.de, and some xn--fa-hia.de. */
function readByNode(url) {
    if (url instanceof URL) return url.href;
    if (typeof url !== 'string') throw new TypeError('the URL is neither a string nor a URL');
    try {
        return new URL(url).href;
    } catch {
        throw new Refused(URL_NUMBER);
    }
}

/* The URL that the library is given. What isn't HTTP, as a page's script, asks by a scheme that isn't. */
function urlOf(url, http) {
    const text = readByNode(url);
    if (http ?? true) return Buffer.from(text);
    if (!/^https?:/.test(text)) throw new Refused(URL_NUMBER);
    return Buffer.from(text.replace(/^https?/, 'ws'));
}

/* What starts a request by a call's options, and the URL of the page that does. */
function startOf({ initiator, navigates, sameSiteContext }) {
    if (sameSiteContext !== undefined) {
        if (initiator !== undefined) throw new TypeError('options.sameSiteContext stands beside options.initiator');
        if (!Object.hasOwn(CONTEXTS, sameSiteContext)) throw new TypeError('options.sameSiteContext is none');
        return [CONTEXTS[sameSiteContext], OF_NO_SITE];
    }
    if (initiator === undefined) return [BY_USER, NONE];
    if (typeof initiator !== 'string' && !(initiator instanceof URL)) {
        throw new TypeError('options.initiator is neither a string nor a URL');
    }
    return [navigates ? BY_NAVIGATION : BY_PAGE, Buffer.from(readByNode(initiator))];
}

function callbackOf(options, callback) {
    const called = typeof options === 'function' ? options : callback ?? undefined;
    if (called !== undefined && typeof called !== 'function') throw new TypeError('the callback is no function');
    return [typeof options === 'function' ? undefined : options, called];
}

/* Does the work now, and tells it to the callback later; a promise tells it where there is none. */
function later(callback, work) {
    const done = new Promise((resolve) => resolve(work()));
    if (!callback) return done;
    done.then((value) => process.nextTick(callback, null, value), (error) => process.nextTick(callback, error));
    return undefined;
}

/* The answer of a call, or what it was refused for. */
function answered(answer) {
    if (typeof answer !== 'number') return answer;
    // (of one line, where memory is refused at it none was taken)
    if (answer === MEMORY || answer <= STOPPED) throw new OutOfMemory();
    throw new Refused(answer);
}

/* Refuses a list's text of one line that names a file, and could be a rule: a file that is there, or a name that ends
   in .dat or .txt, in any case and with white space around it. */
function refuseFile(bytes) {
    const name = bytes.toString();
    const isNamed = /^[^\n\0]*\.(dat|txt)$/i.test(name.trim());
    // (before a line feed it is a rule, whatever is there)
    const isThere = () => !/[\n\0]/.test(name) && fs.statSync(name, { throwIfNoEntry: false })?.isFile();
    if (isNamed || isThere()) throw new Refused(NO_RULE);
}

let handleOf;

/* A public suffix list, by its text: jars that are given it share it. It is read once, and lies in memory once. */
class List {
    #handle = new addon.Handle();

    static {
        handleOf = (list) => list.#handle;
    }

    constructor(text) {
        const bytes = bytesOf(text, 'the text of a public suffix list');
        answered(this.#handle.act(KEEP_LIST, 0, NONE, bytes));
        refuseFile(bytes);
    }

    /* Gives its memory back, once no jar has it either. No jar may be given it then. */
    close() {
        this.#handle.close();
    }
}

const SITES = [undefined, 'strict', 'lax', 'none'];

/* The cookies of an answer: six items each behind their lengths, the last two the second of its end and its flags. */
function heldOf(answer) {
    const cookies = [];
    for (let at = 0; at < answer.length;) {
        const items = [];
        for (let i = 0; i < 6; i++) {
            const length = Number(answer.readBigUInt64LE(at));
            items.push(answer.subarray(at + 8, at + 8 + length));
            at += 8 + length;
        }
        const [domain, path, key, value] = items.slice(0, 4).map(String);
        const [hasEnd, hostOnly, secure, httpOnly, partitioned] = [...items[5]].map(Boolean);
        const expires = hasEnd ? new Date(1000 * Number(items[4].readBigInt64LE())) : undefined;
        const sameSite = SITES[items[5][5]];
        cookies.push({ domain, path, key, value, expires, hostOnly, secure, httpOnly, partitioned, sameSite });
    }
    return cookies;
}

/* What an answer tells of lines: how many there are, how many were taken, and nine bytes of each that was refused. */
function importedOf(answer) {
    const [lines, taken] = [0, 8].map((at) => Number(answer.readBigUInt64LE(at)));
    const refused = [];
    for (let at = 16; at < answer.length; at += 9) {
        refused.push({ line: Number(answer.readBigUInt64LE(at)), code: ROW_CAUSES[answer[at + 8]] });
    }
    return { taken, expired: lines - taken - refused.length, refused };
}

/* A jar that keeps what sites set, and gives each request what it holds for it.

   `store` is null. `options.suffixes` is a List, or the text of one, and `options.rules` a sum of Rules, by
   default those of browsers. With `options.prefixSecurity` as 'strict' a line that breaks its name's prefix is an
   error; else it is passed over. */
class CookieJar {
    #handle = new addon.Handle();
    #isStrict;

    constructor(store, options) {
        this.#put(store, options);
        this.#act(CLIENT, 0, NONE, NONE);
    }

    /* The jar of a saved text, without what is expired at `options.now`. */
    static deserializeSync(saved, store, options) {
        const jar = new CookieJar(store, options);
        jar.#act(LOAD_BY, secondOf(options.now), bytesOf(saved, 'the saved text'), NONE);
        return jar;
    }

    static deserialize(saved, store, options, callback) {
        return later(callbackOf(undefined, callback)[1], () => CookieJar.deserializeSync(saved, store, options));
    }

    static fromJSON(saved, store, options) {
        return CookieJar.deserializeSync(saved, store, options);
    }

    /* Takes a Set-Cookie line of an answer from a URL, and says what became of it: 'Inserted', 'UpdatedExisting',
       'ExpiredExisting' or 'Expired'; nothing where it was refused and that is passed over.

       `options.initiator` is the URL of the page that started the request, at the top of its frames, or `data:,` where
       a frame of another site did; the user did where there is none. Where that page is of another site, the answer
       sets no cookie whose SameSite is Strict or Lax, unless the request `navigates` the top level, by whatever method
       (the draft that follows RFC 6265, section 5.7).
       tough-cookie's `sameSiteContext` says the same of a page that isn't named. */
    setCookieSync(line, url, options) {
        if (typeof line !== 'string') throw new NotThere('a Cookie', 'hand in its line');
        const { http, ignoreError, now, ...start } = optionsOf(options, OF_CALL);
        const end = this.#received(startOf(start), line, urlOf(url, http), secondOf(now));
        if (TAKEN.includes(end)) return end;
        if (ignoreError || (OF_PREFIX.includes(end) && !this.#isStrict)) return undefined;
        throw new LineRefused(end);
    }

    setCookie(line, url, options, callback) {
        const [given, called] = callbackOf(options, callback);
        return later(called, () => this.setCookieSync(line, url, given));
    }

    /* The Cookie header of a request to a URL; '' where it has none.

       `options.initiator` is the URL of the page that starts the request, at the top of its frames, or `data:,`
       where a frame of another site does; the user does where there is none. Where that page is of another site,
       cookies are left out whose SameSite is Strict, and unless the request `navigates` the top level with a safe
       method, as a link by GET, those whose is Lax (the draft that follows RFC 6265, section 5.8.3). tough-cookie's
       `sameSiteContext` says the same of a page that isn't named. */
    getCookieStringSync(url, options) {
        const { http, now, ...start } = optionsOf(options, OF_CALL);
        const [started, page] = startOf(start);
        return this.#act(HEADERS[started], secondOf(now), urlOf(url, http), page).toString();
    }

    getCookieString(url, options, callback) {
        const [given, called] = callbackOf(options, callback);
        return later(called, () => this.getCookieStringSync(url, given));
    }

    /* The saved text of the cookies that have an expiry and aren't expired at `options.now`. */
    serializeSync(options) {
        return this.#act(SAVE, secondOf(options?.now), NONE, NONE).toString();
    }

    serialize(options, callback) {
        const [given, called] = callbackOf(options, callback);
        return later(called, () => this.serializeSync(given));
    }

    toJSON() {
        return this.serializeSync();
    }

    /* Puts the cookies of a cookies.txt, which curl, wget and Python share, into the jar, and says what became of its
       lines: how many were taken, how many were passed over since they are expired at `options.now`, and which were
       refused, each by its number, counted from 1, and its code. Neither the suffix list nor rules judge a line. */
    importCookiesTxt(text, options) {
        return importedOf(this.#act(IMPORT, secondOf(options?.now), NONE, bytesOf(text, 'the text')));
    }

    /* The cookies that it holds and that aren't expired at `options.now` as a cookies.txt for `options.reader`: 'curl',
       which is the default, 'wget' or 'python'. With `options.sessions` as false those are left out that end with the
       session. So are those that no line can hold, as one with a tab in its value. */
    exportCookiesTxt(options) {
        const reader = READERS.indexOf(options?.reader ?? 'curl');
        if (reader < 0) throw new TypeError(`options.reader is ${options.reader}`);
        const word = (options?.sessions ?? true ? EXPORT : EXPORT_LASTING) + reader;
        return this.#act(word, secondOf(options?.now), NONE, NONE).toString();
    }

    /* The cookies that it holds and that aren't expired at `options.now`. */
    heldCookies(options) {
        return heldOf(this.#act(HELD, secondOf(options?.now), NONE, NONE));
    }

    /* The cookie of this domain, path and name, where it holds one that isn't expired at `options.now`. */
    heldCookie(domain, path, name, options) {
        return this.#one(GET, secondOf(options?.now), domain, path, name);
    }

    /* Takes the cookie of this domain, path and name out; nothing where it holds none. An expired one that it still
       keeps counts too. */
    removeCookie(domain, path, name) {
        return this.#one(REMOVE, 0, domain, path, name);
    }

    removeAllCookiesSync() {
        this.#act(CLEAR, 0, NONE, NONE);
    }

    removeAllCookies(callback) {
        return later(callbackOf(undefined, callback)[1], () => this.removeAllCookiesSync());
    }

    /* Ends the session cookies, as saving and loading does. */
    restart(options) {
        this.#act(RESTART, secondOf(options?.now), NONE, NONE);
    }

    /* Gives all memory back, which else waits for the collector. No other call may follow. */
    close() {
        this.#handle.close();
    }

    #put(store, options) {
        if (store != null) throw new NotThere('a Store', 'hand in null, and keep what serialize() gives');
        const { prefixSecurity, rules, suffixes } = optionsOf(options, OF_JAR);
        if (![undefined, 'silent', 'strict'].includes(prefixSecurity)) {
            throw new NotThere(`options.prefixSecurity = ${prefixSecurity}`, 'leave rules out of options.rules');
        }
        if (rules != null && !Number.isInteger(rules)) {
            throw new TypeError('options.rules is a number, as Rules.BROWSER, or several joined by |');
        }
        this.#isStrict = prefixSecurity === 'strict';
        if (suffixes instanceof List) {
            answered(this.#handle.share(handleOf(suffixes)));
        } else {
            const bytes = bytesOf(suffixes, 'options.suffixes, the text of a public suffix list,');
            this.#act(KEEP_LIST, 0, NONE, bytes);
            refuseFile(bytes);
        }
        if (rules != null) {
            this.#act(RULES, rules, NONE, NONE);
        }
    }

    #received([started, page], line, url, second) {
        // (the library takes lines that line feeds join, and of an empty text none)
        const isMany = line.includes('\n');
        const told = answered(this.#handle.receive(started, second, url, page, Buffer.from(isMany ? '' : line)));
        if (isMany) return 'ByControl';
        return line === '' ? 'Parse' : ENDS[told[0]];
    }

    #act(word, number, subject, text) {
        return answered(this.#handle.act(word, number, subject, text));
    }

    #one(word, second, ...key) {
        const texts = key.map((text) => bytesOf(text, 'a domain, a path or a name'));
        return heldOf(answered(this.#handle.one(word, second, ...texts)))[0];
    }
}

/* Has what tough-cookie has and this hasn't raise by its name. */
function putAbsent(on, of, names, instead) {
    for (const name of names) {
        const value = () => { throw new NotThere(`${of}${name}`, instead); };
        Object.defineProperty(on, name, { value, configurable: true, writable: true });
    }
}

class Cookie {
    constructor() {
        throw new NotThere('Cookie');
    }
}

class Store {
    constructor() {
        throw new NotThere('Store');
    }
}

class MemoryCookieStore extends Store {}

const COOKIES = ['getCookies', 'getCookiesSync', 'getSetCookieStrings', 'getSetCookieStringsSync'];
putAbsent(CookieJar.prototype, 'CookieJar.', COOKIES, 'getCookieString has those of a URL');
putAbsent(CookieJar.prototype, 'CookieJar.', ['clone', 'cloneSync'], 'serialize() and CookieJar.deserialize() do it');
putAbsent(Cookie, 'Cookie.', ['parse', 'fromJSON', 'cookiesCreated']);
module.exports = {
    Cookie, CookieJar, FonnalichError, LineRefused, List, MemoryCookieStore, NotThere, OutOfMemory, Refused, Rules,
    Store, living: addon.living, version: addon.version(),
};
putAbsent(module.exports, '', ['canonicalDomain', 'cookieCompare', 'defaultPath', 'domainMatch', 'formatDate',
    'fromJSON', 'getPublicSuffix', 'parse', 'parseDate', 'pathMatch', 'permuteDomain', 'permutePath']);
