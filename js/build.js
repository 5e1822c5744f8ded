// Makes dist/const_hex.js of the source and the verified module, both in src. With --module it has cargo compile the
// module again, which needs the target wasm32-unknown-unknown, or with --check compare that with the one in src.
import { execFileSync } from 'node:child_process';
import { copyFileSync, mkdirSync, readFileSync, writeFileSync } from 'node:fs';
import { fileURLToPath } from 'node:url';

const pathOf = (path) => fileURLToPath(new URL(path, import.meta.url));
const [option, check] = process.argv.slice(2);
if (option === '--module') compile();
else build();

function build() {
    const module = readFileSync(pathOf('src/const_hex.wasm'));
    const source = readFileSync(pathOf('src/const_hex.js'), 'utf8');
    const built = source.replace(/^const MODULE = .*$/m, `const MODULE = '${module.toString('base64')}';`);
    mkdirSync(pathOf('dist'), { recursive: true });
    writeFileSync(pathOf('dist/const_hex.js'), built);
    for (const name of ['LICENSE-APACHE', 'LICENSE-MIT', 'NOTICE']) copyFileSync(pathOf(`../${name}`), pathOf(name));
}

function compile() {
    const target = 'wasm32-unknown-unknown';
    const flags = [
        '-Ctarget-feature=+simd128',
        // A stack of 4 KiB, and 64 KiB of memory in all.
        '-Clink-args=-zstack-size=4096 --initial-memory=65536 --max-memory=65536',
        // The module has no path of this machine in it.
        `--remap-path-prefix=${pathOf('../rust/')}=`,
    ];
    const config = `target.${target}.rustflags = ${JSON.stringify(flags)}`;
    const options = ['--quiet', '--release', '--target', target, '--config', config];
    execFileSync('cargo', ['build', ...options], { cwd: pathOf('module'), stdio: 'inherit' });
    const [made, module] = [pathOf(`module/target/${target}/release/const_hex.wasm`), pathOf('src/const_hex.wasm')];
    if (check !== '--check') copyFileSync(made, module);
    else if (!readFileSync(made).equals(readFileSync(module))) throw new Error(`cargo compiles a different ${module}`);
}
