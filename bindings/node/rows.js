'use strict';
/* What a jar is asked, and what RFC 6265 or tough-cookie's README (its version 4) says that it answers.

   A row has the section, the lines with the URLs that they came from, the URL that is asked, and the header. Where this
   jar answers otherwise, `here` is what it answers, and `why` the cause. `now` is the moment of the question, in
   seconds after the lines came; `options` goes to each call, but for `of`, which goes to the jar. The date of the lines
   is 2024-01-01. */
const HTTP = 'http://www.example.com/';
const HTTPS = 'https://www.example.com/';
const SID = 'SID=31d4d96e407aad42';

const RFC = [
    ['3.1', [[HTTP, SID]], HTTP, SID],
    ['3.1', [[HTTP, `${SID}; Path=/; Domain=example.com`]], 'http://example.com/', SID],
    ['3.1', [[HTTPS, `${SID}; Path=/; Secure; HttpOnly`], [HTTPS, 'lang=en-US; Path=/; Domain=example.com']], HTTPS,
        `${SID}; lang=en-US`],
    ['3.1', [[HTTP, `${SID}; Path=/`], [HTTP, 'lang=en-US; Expires=Wed, 09 Jun 2032 10:18:14 GMT']], HTTP,
        `${SID}; lang=en-US`],
    ['3.1', [[HTTP, SID], [HTTP, 'lang=en-US'], [HTTP, 'lang=; Expires=Sun, 06 Nov 1994 08:49:37 GMT']], HTTP, SID],
    ['4.1.2.3', [['http://foo.example.com/', 'a=1; Domain=example.com']], 'http://bar.example.com/', 'a=1'],
    ['4.1.2.3', [['http://foo.example.com/', 'a=1; Domain=foo.example.com']], 'http://foo.example.com/', 'a=1'],
    ['4.1.2.3', [['http://foo.example.com/', 'a=1; Domain=bar.example.com']], 'http://bar.example.com/', ''],
    ['4.1.2.3', [['http://foo.example.com/', 'a=1; Domain=baz.foo.example.com']], 'http://baz.foo.example.com/', ''],
    ['4.1.2.3', [[HTTP, 'a=1; Domain=.example.com']], 'http://example.com/', 'a=1'],
    ['5.1.1', [[HTTP, 'a=1; Expires=Sun Nov  6 08:49:37 1994']], HTTP, ''],
    ['5.1.1', [[HTTP, 'a=1; Expires=Sunday, 06-Nov-94 08:49:37 GMT']], HTTP, ''],
    ['5.1.1', [[HTTP, 'a=1; Expires=Thu, 1-Jan-70 0:00:00 UTC']], HTTP, ''],
    ['5.1.1', [[HTTP, 'a=1; Expires=Thu, 01-Jan-69 00:00:00 GMT']], HTTP, 'a=1'],
    ['5.1.1', [[HTTP, 'a=1; Expires=Sun, 31 Feb 1994 08:49:37 GMT']], HTTP, 'a=1'],
    ['5.1.2', [['http://WWW.Example.COM/', 'a=1']], HTTP, 'a=1'],
    ['5.1.3', [[HTTP, 'a=1; Domain=EXAMPLE.com']], 'http://mail.example.com/', 'a=1'],
    ['5.1.3', [[HTTP, 'a=1; Domain=ample.com']], HTTP, ''],
    ['5.1.3', [['http://127.0.0.1/', 'a=1; Domain=0.0.1']], 'http://127.0.0.1/', ''],
    ['5.1.3', [['http://127.0.0.1/', 'a=1']], 'http://127.0.0.1/', 'a=1'],
    ['5.1.4', [[`${HTTP}docs/web/page`, 'a=1']], `${HTTP}docs/web`, 'a=1'],
    ['5.1.4', [[`${HTTP}docs/web/page`, 'a=1']], `${HTTP}docs/web/deep/er`, 'a=1'],
    ['5.1.4', [[`${HTTP}docs/web/page`, 'a=1']], `${HTTP}docs`, ''],
    ['5.1.4', [[HTTP, 'a=1; Path=/docs']], `${HTTP}docs/`, 'a=1'],
    ['5.1.4', [[HTTP, 'a=1; Path=/docs']], `${HTTP}docsets`, ''],
    ['5.1.4', [[HTTP, 'a=1; Path=/docs/']], `${HTTP}docs/x`, 'a=1'],
    ['5.2', [[HTTP, '  a  =  1  ; path = /x']], `${HTTP}x`, 'a=1'],
    ['5.2', [[HTTP, 'a=1; PATH=/x; HTTPONLY']], `${HTTP}y`, ''],
    ['5.2', [[HTTP, 'a=b=c']], HTTP, 'a=b=c'],
    ['5.2', [[HTTP, 'a="1"']], HTTP, 'a="1"'],
    ['5.2', [[HTTP, 'a=']], HTTP, 'a='],
    ['5.2', [[HTTP, '=1']], HTTP, ''],
    ['5.2', [[HTTP, 'abc']], HTTP, ''],
    ['5.2', [[HTTP, '']], HTTP, ''],
    ['5.2', [[HTTP, 'a=1; Unknown=2']], HTTP, 'a=1'],
    ['5.2.1', [[HTTP, 'a=1; Expires=never']], HTTP, 'a=1'],
    ['5.2.2', [[HTTP, 'a=1; Max-Age=60']], HTTP, 'a=1', { now: 59 }],
    ['5.2.2', [[HTTP, 'a=1; Max-Age=60']], HTTP, '', { now: 61 }],
    ['5.2.2', [[HTTP, 'a=1'], [HTTP, 'a=1; Max-Age=0']], HTTP, ''],
    ['5.2.2', [[HTTP, 'a=1'], [HTTP, 'a=1; Max-Age=-1']], HTTP, ''],
    ['5.2.2', [[HTTP, 'a=1; Max-Age=soon']], HTTP, 'a=1', { now: 61 }],
    ['5.2.3', [[HTTP, 'a=1; Domain=']], HTTP, 'a=1'],
    ['5.2.3', [[HTTP, 'a=1; Domain=']], 'http://example.com/', ''],
    ['5.2.4', [[`${HTTP}x/y`, 'a=1; Path=y']], `${HTTP}x`, 'a=1'],
    ['5.2.5', [[HTTPS, 'a=1; Secure=no']], HTTP, ''],
    ['5.3, step 3', [[HTTP, 'a=1; Max-Age=60; Expires=Sun, 06 Nov 1994 08:49:37 GMT']], HTTP, 'a=1'],
    ['5.3, step 3', [[HTTP, 'a=1; Expires=Wed, 09 Jun 2032 10:18:14 GMT; Max-Age=0']], HTTP, ''],
    ['5.3, step 3', [[HTTP, 'a=1; Max-Age=0; Max-Age=60']], HTTP, 'a=1'],
    ['5.3, step 4', [[HTTP, 'a=1; Domain=other.org; Domain=example.com']], 'http://example.com/', 'a=1'],
    ['5.3, step 5', [[HTTP, 'a=1; Domain=com']], HTTP, ''],
    ['5.3, step 5', [['http://co.uk/', 'a=1; Domain=co.uk']], 'http://co.uk/', 'a=1'],
    ['5.3, step 5', [['http://co.uk/', 'a=1; Domain=co.uk']], 'http://shop.co.uk/', ''],
    ['5.3, step 6', [[HTTP, 'a=1; Domain=example.org']], 'http://example.org/', ''],
    ['5.3, step 6', [['http://example.com/', 'a=1']], HTTP, ''],
    ['5.3, step 7', [[HTTP, 'a=1; Path=/x; Path=/y']], `${HTTP}y`, 'a=1'],
    ['5.3, step 10', [[HTTP, 'a=1; HttpOnly']], HTTP, '', { options: { http: false } }],
    ['5.3, step 11', [[HTTP, 'a=1'], [HTTP, 'b=2'], [HTTP, 'a=3']], HTTP, 'a=3; b=2'],
    ['5.3, step 11', [[HTTP, 'a=1'], [HTTP, 'a=2; Domain=example.com']], 'http://example.com/', 'a=2'],
    ['5.4, step 1', [[HTTPS, 'a=1; Secure']], HTTP, ''],
    ['5.4, step 1', [[HTTPS, 'a=1; Secure']], HTTPS, 'a=1'],
    ['5.4, step 2', [[`${HTTP}x/`, 'a=1; Path=/'], [`${HTTP}x/`, 'b=2; Path=/x']], `${HTTP}x/`, 'b=2; a=1'],
    ['5.4, step 2', [[HTTP, 'b=1'], [HTTP, 'a=2']], HTTP, 'b=1; a=2'],
];

const TOUGH = [
    ['setCookie, http', [[HTTP, 'a=1']], HTTP, 'a=1', { options: { http: false } }],
    ['getCookies, secure', [[HTTPS, 'a=1; Secure']], 'HTTPS://www.example.com/', 'a=1'],
    ['getCookies, expire', [[HTTP, 'a=1; Max-Age=1']], HTTP, '', { now: 2 }],
    ['CookieJar, prefixSecurity silent', [[HTTPS, '__Secure-a=1']], HTTPS, ''],
    ['CookieJar, prefixSecurity silent', [[HTTPS, '__Host-a=1; Secure; Domain=example.com; Path=/']], HTTPS, ''],
    ['CookieJar, prefixSecurity silent', [[HTTPS, '__Host-a=1; Secure; Path=/']], HTTPS, '__Host-a=1'],
    ['setCookie, ignoreError', [[HTTP, 'a=1; Domain=example.org']], HTTP, '', { options: { ignoreError: true } }],
    ['CookieJar, allowSpecialUseDomain', [['http://localhost/', 'a=1; Domain=localhost']], 'http://localhost/', 'a=1'],
    ['setCookie, http', [[HTTPS, 'a=1; Secure; Path=/', { http: true }]], HTTPS, 'a=1', {
        options: { http: false }, here: '', why: 'what is not HTTP asks as over http: it is given no Secure cookie',
    }],
    ['setCookie', [[HTTP, 'a=1; Secure']], HTTPS, 'a=1', {
        here: '', why: 'a rule of browsers: a Secure cookie comes from a secure URL alone', code: 'BySecureFromHttp',
    }],
    ['setCookie', [[HTTP, 'a=1; Secure']], HTTPS, 'a=1', { of: { rules: 0 } }],
    ['setCookie', [[HTTPS, 'a=1; Secure; Path=/'], [HTTP, 'a=2']], HTTPS, 'a=2', {
        here: 'a=1', why: 'a rule of browsers: http changes no Secure cookie', code: 'BySecureOverlay',
    }],
    ['setCookie', [[HTTP, 'a=1; Max-Age=40000000']], HTTP, 'a=1', {
        now: 34560001, here: '', why: 'a rule of browsers: lives are cut at 400 days',
    }],
    ['setCookie', [[HTTP, 'a=1; Max-Age=40000000']], HTTP, 'a=1', { now: 34560001, of: { rules: 0 } }],
    ['getCookies', [['https://localhost/', 'a=1; Secure']], 'http://localhost/', '', {
        here: 'a=1', why: 'localhost is secure, as in browsers and in later versions of tough-cookie',
    }],
    ['CookieJar, allowSpecialUseDomain', [['http://a.localhost/', 'a=1; Domain=a.localhost']], 'http://b.a.localhost/',
        'a=1'],
];

module.exports = { RFC, TOUGH };
