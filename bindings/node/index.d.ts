/** Cookies of an HTTP client (RFC 6265), by the proved library fonnalich: a jar of tough-cookie's shape. */

/** What became of a line that was taken. */
export type Taken = 'Inserted' | 'UpdatedExisting' | 'ExpiredExisting' | 'Expired';

/** Why a line was refused: by the store, or, from `ByControl` on, by a rule, or, the last two, by its `SameSite`. */
export type LineEnd =
    | 'NotText' | 'HostPrefix' | 'NonHttpScheme' | 'NonRelativeScheme' | 'DomainMismatch' | 'Parse' | 'PublicSuffix'
    | 'ByControl' | 'ByTooLong' | 'BySecurePrefix' | 'ByHostPrefix' | 'BySecureFromHttp' | 'BySecureOverlay'
    | 'ByLacksSecure' | 'ByCrossSite' | 'ByNoneLacksSecure';

/** Why a call was refused: the name of its number in the header file. */
export type Refusal =
    | 'Word' | 'NoClient' | 'List' | 'Moment' | 'Url' | 'Saved' | 'Year' | 'Read' | 'Text' | 'Rules' | 'Line' | 'NoRule'
    | 'NoList';

/** A moment: a Date, or milliseconds since 1970, of which the whole seconds count. */
export type Moment = Date | number;

export type Callback<T> = (error: Error | null, value?: T) => void;

/**
 * The rules of browsers, of which a jar takes a sum. With `CONTROL` a header leaves out a cookie in whose name or value
 * a control character stands; without it such a header is refused as `Line`, and a neighbour's line can bring that
 * about. Some browsers have `LAX_BY_DEFAULT`: where a page of another site starts a request, a cookie without
 * `SameSite` is one with `SameSite=Lax`. Some have `NONE_NEEDS_SECURE`: one with `SameSite=None` that isn't Secure is
 * refused. `BROWSER` has neither. No browser has `SECURE_WINS`.
 */
export declare const Rules: Readonly<{
    NONE: 0; CONTROL: 1; TOO_LONG: 2; SECURE_PREFIX: 4; HOST_PREFIX: 8; SECURE_FROM_HTTP: 16; SECURE_OVERLAY: 32;
    LONG_ATTRIBUTES: 64; DATES: 128; LONG_LIVES: 256; BROWSER: 511; SECURE_WINS: 512;
    LAX_BY_DEFAULT: 1024; NONE_NEEDS_SECURE: 2048;
}>;

export interface JarOptions {
    /** A public suffix list, which jars share, or the text of one. */
    suffixes: List | string | Uint8Array;
    /** A sum of `Rules`, which lines come behind; none given is `Rules.BROWSER`. */
    rules?: number;
    /** As 'strict' a line that breaks its name's prefix is an error; else it is passed over. */
    prefixSecurity?: 'silent' | 'strict';
    allowSpecialUseDomain?: true;
    looseMode?: false;
    rejectPublicSuffixes?: true;
}

export interface CallOptions {
    /** The moment of the call; none is now. */
    now?: Moment;
    /** Whether the caller is HTTP. What isn't, as a page's script, has neither HttpOnly cookies nor Secure ones. */
    http?: boolean;
    /** The URL of the page that starts the request, at the top of its frames, or `data:,` where a frame of another site
     *  does; none is the user. */
    initiator?: string | URL;
    /**
     * Whether the request navigates the top level: for its header by a safe method, as a link by GET, and for its
     * answer by any.
     */
    navigates?: boolean;
    /**
     * The same of a page that isn't named: 'strict' where it is of the site itself, 'lax' where one of another site
     * navigates, and 'none' where one of another site asks for something else. Not beside `initiator`.
     */
    sameSiteContext?: 'strict' | 'lax' | 'none';
    allPaths?: false;
    expire?: true;
    loose?: false;
    sort?: true;
}

export interface SetOptions extends CallOptions {
    /** Whether a line that is refused is passed over. */
    ignoreError?: boolean;
}

export interface MomentOption {
    now?: Moment;
}

/** A public suffix list, by its text. It is read once, and lies in memory once, however many jars have it. */
export declare class List {
    constructor(text: string | Uint8Array);
    /** Gives its memory back, once no jar has it either. No jar may be given it then. */
    close(): void;
}

/** Why a line of a cookies.txt wasn't taken: FONNALICH_ROW_.. of the header file. */
export type RowCause =
    | 'NotText' | 'Fields' | 'NoDomain' | 'Flag' | 'Path' | 'Expiry' | 'EmptyName' | 'Domain' | 'Control' | 'Pair'
    | 'HostPrefix';

/** What became of the lines of a cookies.txt that are neither blank nor comments. */
export interface Imported {
    taken: number;
    /** How many were passed over, since their cookies are expired. */
    expired: number;
    /** Each by its number, counted from 1. */
    refused: { line: number; code: RowCause }[];
}

export interface ExportOptions extends MomentOption {
    /**
     * Who reads the text; none is 'curl'. 'wget' takes `#HttpOnly_` for a comment, so no line says that to it. To
     * 'python', which is `MozillaCookieJar`, no expiry is empty, since it takes 0 for a second of 1970.
     */
    reader?: 'curl' | 'wget' | 'python';
    /** As false those are left out that end with the session. */
    sessions?: boolean;
}

/** A cookie that a jar holds. No two of a jar have the same domain, path and key. */
export interface HeldCookie {
    /** The host that it is for, without a leading dot. */
    domain: string;
    path: string;
    /** Its name, as it was received. */
    key: string;
    value: string;
    /** Its end; none where that is the session's. */
    expires: Date | undefined;
    /** Whether it is for its domain alone, and else for the hosts below it too. */
    hostOnly: boolean;
    secure: boolean;
    httpOnly: boolean;
    partitioned: boolean;
    sameSite: 'strict' | 'lax' | 'none' | undefined;
}

/**
 * A jar that keeps what sites set, and gives each request what it holds for it. `store` is null.
 *
 * A call without a callback answers a promise. It does its work at once: a promise and a callback tell it later.
 */
export declare class CookieJar {
    constructor(store: null | undefined, options: JarOptions);

    /** The jar of a saved text, without what is expired at `options.now`. */
    static deserialize(saved: string | Uint8Array, store: null | undefined, options: JarOptions & MomentOption):
        Promise<CookieJar>;
    static deserialize(saved: string | Uint8Array, store: null | undefined, options: JarOptions & MomentOption,
        callback: Callback<CookieJar>): void;
    static deserializeSync(saved: string | Uint8Array, store: null | undefined, options: JarOptions & MomentOption):
        CookieJar;
    static fromJSON(saved: string | Uint8Array, store: null | undefined, options: JarOptions & MomentOption): CookieJar;

    /**
     * Takes a Set-Cookie line of an answer from a URL, and says what became of it. It raises `LineRefused` where the
     * line is refused, or answers nothing where that is passed over.
     */
    setCookie(line: string, url: string | URL, options?: SetOptions): Promise<Taken | undefined>;
    setCookie(line: string, url: string | URL, callback: Callback<Taken | undefined>): void;
    setCookie(line: string, url: string | URL, options: SetOptions | undefined, callback: Callback<Taken | undefined>):
        void;
    setCookieSync(line: string, url: string | URL, options?: SetOptions): Taken | undefined;

    /** The Cookie header of a request to a URL; '' where it has none. */
    getCookieString(url: string | URL, options?: CallOptions): Promise<string>;
    getCookieString(url: string | URL, callback: Callback<string>): void;
    getCookieString(url: string | URL, options: CallOptions | undefined, callback: Callback<string>): void;
    getCookieStringSync(url: string | URL, options?: CallOptions): string;

    /** The saved text of the cookies that have an expiry and aren't expired: session cookies aren't in it. */
    serialize(options?: MomentOption): Promise<string>;
    serialize(callback: Callback<string>): void;
    serialize(options: MomentOption | undefined, callback: Callback<string>): void;
    serializeSync(options?: MomentOption): string;
    toJSON(): string;

    /**
     * Puts the cookies of a cookies.txt, which curl, wget and Python share, into the jar. Each line is read by itself;
     * neither the suffix list nor rules judge it, so trust the file.
     */
    importCookiesTxt(text: string | Uint8Array, options?: MomentOption): Imported;
    /**
     * The cookies that it holds and that aren't expired as a cookies.txt. Those that no line can hold are left out, as
     * one with a tab in its value.
     */
    exportCookiesTxt(options?: ExportOptions): string;

    /** The cookies that it holds and that aren't expired. */
    heldCookies(options?: MomentOption): HeldCookie[];
    /** The cookie of this domain, path and name, where it holds one that isn't expired. */
    heldCookie(domain: string, path: string, name: string, options?: MomentOption): HeldCookie | undefined;
    /** Takes the cookie out. An expired one that it still keeps counts too. */
    removeCookie(domain: string, path: string, name: string): HeldCookie | undefined;
    removeAllCookies(): Promise<void>;
    removeAllCookies(callback: Callback<void>): void;
    removeAllCookiesSync(): void;

    /** Ends the session cookies, as saving and loading does. */
    restart(options?: MomentOption): void;
    /** Gives all memory back, which else waits for the collector. No other call may follow. */
    close(): void;

    /** These raise `NotThere`. */
    getCookies(...words: unknown[]): never;
    getCookiesSync(...words: unknown[]): never;
    getSetCookieStrings(...words: unknown[]): never;
    getSetCookieStringsSync(...words: unknown[]): never;
    clone(...words: unknown[]): never;
    cloneSync(...words: unknown[]): never;
}

export declare class FonnalichError extends Error {
    code: string;
}

/** A call was refused; `number` is that of the header file. The jar is as it was. */
export declare class Refused extends FonnalichError {
    code: Refusal;
    number: number;
}

/** A line was refused; `code` says why. The jar is as it was. */
export declare class LineRefused extends FonnalichError {
    code: LineEnd;
}

/** Memory was refused. The jar is as it was. */
export declare class OutOfMemory extends FonnalichError {}

/** tough-cookie has it, and this hasn't; `what` names it. */
export declare class NotThere extends FonnalichError {
    what: string;
}

/** The version of the library. */
export declare const version: string;
/** How many jars of this thread haven't ended. */
export declare function living(): number;
