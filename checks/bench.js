#!/usr/bin/env node
// Times the built program beside make, ninja and npm, and beside what no runner can do without, in one run.
//
//     checks/bench.js PROGRAM [COUNT...]
//
// For each count of packages (60, 125, 200 and 1,000 where none is said) and each shape makes a repository and prints a row:
// a first run of short commands, a run in which nothing changed, one after an edit, and the greatest memory. In `flat` no
// package depends on another, in `tree` each on the one at half its place, in `chain` each on the one before it. Then it
// runs after a hundred edits in a row, and last it lists large repositories without running anything: files in many
// packages and in one, and tasks that each depend on five others. Each time is the least of three, but npm's and those of
// an edit, which are taken once. Times are seconds by the clock.
'use strict'

const { spawnSync } = require('child_process')
const fs = require('fs')
const os = require('os')
const path = require('path')

const [, , programPath, ...words] = process.argv
if (!programPath) {
  console.error('checks/bench.js PROGRAM [COUNT...]')
  process.exit(2)
}
const PROGRAM = path.resolve(programPath)
const COUNTS = words.length > 0 ? words.map(Number) : [60, 125, 200, 1000]

const TIMES = 3
const AT_ONCE = 10
const FILES = 10
const FILE_BYTES = 2000
const EDITS = 100
// Packages and files in each, and tasks of one package, that are listed; and how far back each task's dependencies stand.
const LISTED = [[100, 50], [1000, 50], [1, 50000]]
const PLANNED = [20, 100]
const BACK = [1, 2, 3, 5, 8]
// What a short command does: it sleeps ten milliseconds and prints a line.
const SHORT = 'sleep 0.01; echo built'
// npm starts itself for each package, and keys of a long chain hold one another: beyond these counts neither is timed.
const MOST_OF_NPM = 200
const MOST_OF_CHAIN = 200

const work = fs.mkdtempSync(path.join(os.tmpdir(), 'bench-'))
process.on('exit', () => fs.rmSync(work, { recursive: true, force: true }))

const name = (number) => `p${String(number).padStart(4, '0')}`

// The number of the package that this one depends on, if it does.
const SHAPES = {
  flat: () => undefined,
  tree: (number) => (number > 0 ? (number - 1) >> 1 : undefined),
  chain: (number) => (number > 0 ? number - 1 : undefined),
}

function write(file, text) {
  fs.mkdirSync(path.dirname(file), { recursive: true })
  fs.writeFileSync(file, text)
}

// Text that differs from file to file.
const content = (seed) => `${seed} `.repeat(Math.ceil(FILE_BYTES / (String(seed).length + 1))).slice(0, FILE_BYTES)

function makeRules(numbers, dependency) {
  const rules = numbers.map((number) => {
    const below = dependency(number)
    return `${name(number)}:${below === undefined ? '' : ` ${name(below)}`}\n\t@cd packages/${name(number)} && { ${SHORT}; }\n`
  })
  const all = numbers.map(name).join(' ')
  return `.PHONY: all ${all}\nall: ${all}\n${rules.join('')}`
}

function ninjaRules(numbers, dependency) {
  const rules = numbers.map((number) => {
    const below = dependency(number)
    return `build ${name(number)}: run${below === undefined ? '' : ` | ${name(below)}`}\n  package = ${name(number)}\n`
  })
  return `rule run\n  command = cd packages/$package && { ${SHORT}; }\n  description = $package\n${rules.join('')}`
}

function repository(count, dependency, files = FILES) {
  const root = fs.mkdtempSync(path.join(work, 'repository-'))
  const numbers = [...Array(count).keys()]
  write(path.join(root, 'package.json'), '{"name":"root","version":"1.0.0","workspaces":["packages/*"]}\n')
  write(path.join(root, 'turbo.json'), '{"tasks":{"build":{"dependsOn":["^build"]}}}\n')
  write(path.join(root, '.gitignore'), '.turbo\n')
  write(path.join(root, 'Makefile'), makeRules(numbers, dependency))
  write(path.join(root, 'build.ninja'), ninjaRules(numbers, dependency))
  for (const number of numbers) {
    const folder = path.join(root, 'packages', name(number))
    const below = dependency(number)
    const manifest = { name: name(number), version: '1.0.0', scripts: { build: SHORT } }
    if (below !== undefined) manifest.dependencies = { [name(below)]: '*' }
    write(path.join(folder, 'package.json'), JSON.stringify(manifest))
    for (let file = 0; file < files; file++) write(path.join(folder, 'src', `${file}.txt`), content(`${number}-${file}`))
  }
  return root
}

// The seconds that a command takes in the folder.
function seconds(root, command, args) {
  const begun = process.hrtime.bigint()
  const ended = spawnSync(command, args, { cwd: root, stdio: ['ignore', 'ignore', 'pipe'] })
  const took = Number(process.hrtime.bigint() - begun) / 1e9
  if (ended.error || ended.status !== 0) throw new Error(`${command}: ${ended.error || ended.stderr}`)
  return took
}

function least(times, before, root, command, args) {
  let found = Infinity
  for (let time = 0; time < times; time++) {
    before()
    found = Math.min(found, seconds(root, command, args))
  }
  return found
}

const RUN = ['run', 'build', `--concurrency=${AT_ONCE}`]

const nothing = () => {}

const forget = (root) => () => {
  fs.rmSync(path.join(root, '.turbo'), { recursive: true, force: true })
  for (const entry of fs.readdirSync(path.join(root, 'packages'))) {
    fs.rmSync(path.join(root, 'packages', entry, '.turbo'), { recursive: true, force: true })
  }
}

function edit(root, number, turn) {
  fs.appendFileSync(path.join(root, 'packages', name(number), 'src/0.txt'), `edit ${turn}\n`)
}

// The greatest memory of a run, in bytes, as GNU time tells it.
function memory(root) {
  const ended = spawnSync('/usr/bin/time', ['-f', '%M', PROGRAM, ...RUN], { cwd: root, stdio: ['ignore', 'ignore', 'pipe'], encoding: 'utf8' })
  return ended.error ? NaN : Number(ended.stderr.trim().split('\n').pop()) * 1024
}

// The bytes of all inputs, and of the keys, each of which holds the inputs of all that its task stands on.
function bytes(count, dependency) {
  const own = FILES * FILE_BYTES
  const sizes = []
  for (let number = 0; number < count; number++) {
    const below = dependency(number)
    sizes.push(own + (below === undefined ? 0 : sizes[below]))
  }
  return { inputs: own * count, keys: sizes.reduce((sum, size) => sum + size, 0) }
}

// Reading every input once, and hashing as many bytes as the keys have, by the system's programs.
function floor(root, keys) {
  const read = least(TIMES, nothing, root, 'sh', ['-c', 'find packages -type f -print0 | xargs -0 cat >/dev/null'])
  const hash = least(TIMES, nothing, root, 'sh', ['-c', `head -c ${keys} /dev/zero | sha256sum`])
  return read + hash
}

const shown = (time) => (Number.isFinite(time) ? time.toFixed(3) : '-')

const ratio = (time, other) => (Number.isFinite(other) ? (time / other).toFixed(2) : '-')

function row(count, shape) {
  const dependency = SHAPES[shape]
  const root = repository(count, dependency)
  const size = bytes(count, dependency)
  const first = least(TIMES, forget(root), root, PROGRAM, RUN)
  const made = least(TIMES, nothing, root, 'make', ['-rs', `-j${AT_ONCE}`])
  const ninja = least(TIMES, () => fs.rmSync(path.join(root, '.ninja_log'), { force: true }), root, 'ninja', ['--quiet', `-j${AT_ONCE}`])
  const npm = count <= MOST_OF_NPM ? seconds(root, 'npm', ['run', 'build', '--workspaces', '--silent']) : NaN
  const second = least(TIMES, nothing, root, PROGRAM, RUN)
  const least_possible = floor(root, size.keys)
  const peak = memory(root)
  edit(root, count - 1, 0)
  const edited = seconds(root, PROGRAM, RUN)
  fs.rmSync(root, { recursive: true, force: true })
  const cells = [
    `${shape}, ${count}`, shown(first), shown(made), shown(ninja), shown(npm), ratio(first, made),
    shown(second), shown(least_possible), ratio(second, least_possible), ratio(second, npm), shown(edited),
    `${(peak / 1e6).toFixed(0)} of ${(size.inputs / 1e6).toFixed(0)}`,
  ]
  console.log(`| ${cells.join(' | ')} |`)
  return second
}

function edits(count) {
  const root = repository(count, SHAPES.tree)
  seconds(root, PROGRAM, RUN)
  const times = []
  for (let turn = 0; turn < EDITS; turn++) {
    edit(root, count - 1, turn)
    times.push(seconds(root, PROGRAM, RUN))
  }
  const middle = (list) => [...list].sort((a, b) => a - b)[list.length >> 1]
  const [begin, end] = [middle(times.slice(0, 10)), middle(times.slice(-10))]
  console.log(`\n${EDITS} edits in a row of one package of ${count} (tree), medians of the first and the last ten runs: ${shown(begin)} and ${shown(end)} s, ${ratio(end, begin)} times`)
}

// Packages of files, and a task in each, of which nothing runs.
function listed(packages, files) {
  const root = repository(packages, SHAPES.flat, files)
  const dry = least(TIMES, nothing, root, PROGRAM, ['run', 'build', '--dry'])
  const walked = least(TIMES, nothing, root, 'find', ['packages', '-type', 'f'])
  const hashed = least(TIMES, nothing, root, 'sh', ['-c', 'find packages -type f -print0 | sort -z | xargs -0 cat | sha256sum'])
  fs.rmSync(root, { recursive: true, force: true })
  console.log(`| ${[`${packages} packages of ${files} files`, shown(dry), shown(walked), shown(hashed), ratio(dry, hashed)].join(' | ')} |`)
}

// One package of tasks, of which each depends on five before it.
function planned(tasks) {
  const root = repository(1, SHAPES.flat)
  const definitions = {}
  const scripts = {}
  for (let task = 0; task < tasks; task++) {
    const dependsOn = BACK.filter((back) => back <= task).map((back) => `t${task - back}`)
    definitions[`t${task}`] = { dependsOn, inputs: ['src/0.txt'] }
    scripts[`t${task}`] = SHORT
  }
  write(path.join(root, 'turbo.json'), JSON.stringify({ tasks: definitions }))
  write(path.join(root, 'packages', name(0), 'package.json'), JSON.stringify({ name: name(0), version: '1.0.0', scripts }))
  const dry = least(TIMES, nothing, root, PROGRAM, ['run', `t${tasks - 1}`, '--dry'])
  fs.rmSync(root, { recursive: true, force: true })
  console.log(`| ${tasks} tasks of one package | ${shown(dry)} | | | |`)
}

console.log('| shape, packages | first run | make -j10 | ninja -j10 | npm | of make | nothing changed | floor | of the floor | of npm | one edit | memory, MB of inputs |')
console.log('|---|---|---|---|---|---|---|---|---|---|---|---|')
for (const count of COUNTS) {
  for (const shape of Object.keys(SHAPES)) {
    if (shape !== 'chain' || count <= MOST_OF_CHAIN) row(count, shape)
  }
}
edits(COUNTS[COUNTS.length > 1 ? 1 : 0])

console.log('\n| `--dry` of | listed | `find` | `find`, `cat` and `sha256sum` | of these |')
console.log('|---|---|---|---|---|')
for (const [packages, files] of LISTED) listed(packages, files)
for (const tasks of PLANNED) planned(tasks)
