// The package as users install, import, bundle and compile it, and the cases in browsers.
import assert from 'node:assert/strict';
import { execFileSync, spawn, spawnSync } from 'node:child_process';
import { once } from 'node:events';
import { copyFileSync, mkdtempSync, readFileSync, rmSync, writeFileSync } from 'node:fs';
import { createServer } from 'node:http';
import { tmpdir } from 'node:os';
import { extname, join } from 'node:path';
import test, { after } from 'node:test';
import { fileURLToPath } from 'node:url';

const root = fileURLToPath(new URL('..', import.meta.url));
const folder = mkdtempSync(join(tmpdir(), 'package-'));
after(() => rmSync(folder, { recursive: true, force: true, maxRetries: 5 }));

/** Returns what a command prints. */
const run = (cwd, tool, ...options) => execFileSync(tool, options, { cwd, encoding: 'utf8', stdio: 'pipe' });
/** Returns why a test that needs a tool is skipped, or false. */
const without = (tool) => (spawnSync(tool, ['--version']).error ? `${tool} is not installed` : false);
const page = readFileSync(join(root, 'README.md'), 'utf8');
const [example, other] = Array.from(page.matchAll(/```js\n(.*?)```/gs), ([, lines]) => lines);
// An example has what it prints in comments: `console.log(a);  // b` prints b.
const printedBy = (lines) => Array.from(lines.matchAll(/console\.log.*\); +\/\/ (.*\n)/g), ([, line]) => line).join('');
const printed = printedBy(example);

test('npm packs and installs the package, and the example runs', { skip: without('npm') }, () => {
    const packed = run(root, 'npm', 'pack', '--json', '--ignore-scripts', '--pack-destination', folder);
    const [{ files, filename }] = JSON.parse(packed);
    const licenses = ['LICENSE-APACHE', 'LICENSE-MIT', 'NOTICE'];
    const expected = [...licenses, 'README.md', 'dist/const_hex.js', 'index.d.ts', 'package.json'];
    assert.deepEqual(files.map(({ path }) => path).sort(), expected);
    run(folder, 'npm', 'install', '--offline', '--no-audit', '--no-fund', `./${filename}`);
    const required = example.replace(/^import (.*) from ('.*');/m, 'const $1 = require($2);');
    for (const [name, program] of [['example.mjs', example], ['example.cjs', required], ['other.mjs', other]]) {
        writeFileSync(join(folder, name), program);
        assert.equal(run(folder, process.execPath, name), printedBy(program), name);
    }
});

test('esbuild bundles the package, in at most 16 KiB', { skip: without('esbuild') }, () => {
    const input = join(folder, 'bundled.mjs');
    writeFileSync(input, example.replace('const-hex-proved', join(root, 'dist/const_hex.js')));
    for (const format of ['esm', 'cjs', 'iife']) {
        const output = join(folder, `${format}.${format === 'esm' ? 'mjs' : 'cjs'}`);
        run(root, 'esbuild', '--bundle', `--format=${format}`, `--outfile=${output}`, input);
        assert.equal(run(folder, process.execPath, output), printed, format);
    }
    assert(run(root, 'esbuild', '--minify', 'dist/const_hex.js').length <= 16 * 1024);
});

test('tsc accepts the types', { skip: without('tsc') || without('npm') }, () => {
    copyFileSync(join(root, 'tests', 'types.ts'), join(folder, 'types.mts'));
    for (const settings of [['--module', 'nodenext'], ['--module', 'es2022', '--moduleResolution', 'node']]) {
        run(folder, 'tsc', '--strict', '--noEmit', '--target', 'es2022', ...settings, 'types.mts');
    }
});

const TYPES = { '': 'text/html', '.js': 'text/javascript', '.tsv': 'text/plain' };
// With these a page may have shared buffers.
const SHARED = ['Cross-Origin-Opener-Policy', 'same-origin', 'Cross-Origin-Embedder-Policy', 'require-corp'];
const PAGE = `<!doctype html><script type="module">
    import { cases } from '/js/tests/cases.js';
    const failed = {};
    for (const [name, run] of Object.entries(cases)) {
        await new Promise((resolve) => resolve(run())).catch((error) => { failed[name] = String(error); });
    }
    fetch('/', { method: 'POST', body: JSON.stringify(failed) });
</script>`;

/** Serves the page and the files of the repository, and returns what the page sends: what failed. */
function serve(server) {
    return new Promise((report) => server.on('request', async (request, response) => {
        if (request.method === 'POST') report(JSON.parse(Buffer.concat(await request.toArray())));
        const { pathname } = new URL(request.url, 'http://localhost');
        const type = TYPES[extname(pathname)];
        response.writeHead(type ? 200 : 404, [...SHARED, 'Content-Type', type ?? 'text/plain']);
        response.end(pathname === '/' ? PAGE : type && readFileSync(join(root, '..', pathname)));
    }));
}

for (const [browser, ...options] of [
    ['chromium', '--headless', '--no-sandbox', '--disable-gpu', '--user-data-dir=FOLDER'],
    ['firefox-esr', '--headless', '--no-remote', '--profile', 'FOLDER'],
]) {
    test(`the cases in ${browser}`, { skip: without(browser) }, async () => {
        const profile = mkdtempSync(join(folder, browser));
        const server = createServer().listen(0, '127.0.0.1');
        await once(server, 'listening');
        const page = `http://127.0.0.1:${server.address().port}/`;
        const env = { ...process.env, HOME: profile, MOZ_DISABLE_CONTENT_SANDBOX: '1' };
        const values = options.map((option) => option.replace('FOLDER', profile));
        const running = spawn('timeout', ['300', browser, ...values, page], { stdio: 'ignore', env });
        const exit = once(running, 'exit');
        try {
            assert.deepEqual(await Promise.race([serve(server), exit]), {});
        } finally {
            running.kill(); // `timeout` passes the signal to the browser and its children.
            await exit;
            server.closeAllConnections();
            server.close();
        }
    });
}
