#!/usr/bin/env node
// What public JSX parsers answer to the items of a batch.
//
//     answer.js [PARSER..] < ITEMS     a line of JSON for each item; the parsers are babel, acorn-jsx, typescript, its checker, and esbuild
//     answer.js --versions             their versions
//
// An item is one byte `s` or `r`, the length in 4 bytes, low byte first, and the bytes. A stage is given as it is, a run
// wrapped in `<>` and `</>`, as one expression of a module, with JSX and without TypeScript.
//
// A line is `null` where the bytes are not UTF-8, else an object with an answer for each parser: {"no": why it refuses} or
// {"rows": [[kind, start, end, parent, paired, depth], ..]}. Rows are in preorder and have document 01's kinds, but that every part of
// a name is a 16: these parsers do not tell 3, 4 and 5 apart. Offsets are in bytes of UTF-8, those of a run less 2; `paired` is 1
// for an element with a closing tag; a missing parent is -1; `depth` is the number of ancestors among the rows. TypeScript and esbuild
// give no rows: {"rows": null}. `checker` is TypeScript's checker, of which only errors about grammar count: it has an answer where the
// parser accepts.
//
// Only a parser's own syntax error is a refusal, and the two ways in which a parser was seen to end otherwise: OTHER_ENDS. Any other trouble
// ends the program.
'use strict';
const fs = require('fs');
const Module = require('module');

// Where Debian puts modules. A node that isn't Debian's looks there only if it is told.
const folders = ['/usr/share/nodejs', '/usr/lib/nodejs'];
for (const name of fs.readdirSync('/usr/lib')) folders.push('/usr/lib/' + name + '/nodejs');
process.env.NODE_PATH = folders.filter((folder) => fs.existsSync(folder)).join(':');
Module._initPaths();

// Each is loaded when it is first asked.
const lazy = (load, loaded) => () => loaded || (loaded = load());
const babel = lazy(() => require('@babel/parser'));
const acorn = lazy(() => require('acorn'));
const ts = lazy(() => require('typescript'));
const esbuild = lazy(() => require('esbuild'));

// Babel decodes character references, and asks for characters that there are not. TypeScript holds some of its own trees impossible.
const OTHER_ENDS = [/^Invalid code point/, /^Debug Failure/];

function unlessRefused(answer, isRefusal) {
  try {
    return answer();
  } catch (error) {
    if (isRefusal(error)) return { no: error.message };
    const end = OTHER_ENDS.find((words) => words.test(error.message));
    if (!end) throw error;
    return { no: `ends by ${error.name}: ${end.exec(error.message)[0]}` };
  }
}

// ---- Babel and acorn-jsx: a tree, or a syntax error

function babelTree(code) {
  return babel().parseExpression(code, {
    sourceType: 'module', plugins: ['jsx'], createParenthesizedExpressions: true, attachComment: false,
  });
}

// acorn's own parseExpressionAt stops behind the expression; here the input must end there.
const wholeExpression = lazy(() => class extends acorn().Parser.extend(require('acorn-jsx')()) {
  whole() {
    this.nextToken();
    const tree = this.parseExpression();
    if (this.type !== acorn().tokTypes.eof) this.unexpected();
    return tree;
  }
});

function acornTree(code) {
  const Parser = wholeExpression();
  return new Parser({ ecmaVersion: 'latest', sourceType: 'module', preserveParens: true }, code).whole();
}

function treeAnswer(parse, item) {
  const answer = unlessRefused(() => ({ tree: parse(item.code) }), (error) => error instanceof SyntaxError);
  return answer.tree ? { rows: itemRows(answer.tree, item) } : { no: answer.no.replace(/ \(\d+:\d+\)$/, '') };
}

// The rows of an item: of a wrapped run, those inside the fragment around it. Of an expression that is more than markup: none.
function itemRows(tree, item) {
  if (!isMarkup(tree)) return [];
  const rows = new Rows(item.code).element(tree, -1).all;
  if (item.reading === 's') return rows;
  return rows.slice(2, -1).map(([kind, start, end, parent, paired, depth]) =>
    [kind, start - 2, end - 2, parent === 0 ? -1 : parent - 2, paired, depth - 1]);
}

function isMarkup(node) {
  return node.type === 'JSXElement' || node.type === 'JSXFragment';
}

// The place of `depth` in a row.
const DEPTH = 5;

class Rows {
  constructor(code) {
    this.all = [];
    this.byteAt = byteOffsets(code);
  }

  row(kind, node, parent, paired = 0) {
    const depth = parent < 0 ? 0 : this.all[parent][DEPTH] + 1;
    return this.all.push([kind, this.byteAt(node.start), this.byteAt(node.end), parent, paired, depth]) - 1;
  }

  element(node, parent) {
    const fragment = node.type === 'JSXFragment';
    const opening = fragment ? node.openingFragment : node.openingElement;
    const closing = fragment ? node.closingFragment : node.closingElement;
    const here = this.row(fragment ? 2 : 1, node, parent, !fragment && closing ? 1 : 0);
    const tag = this.row(18, opening, here);
    if (opening.name) this.name(opening.name, tag);
    for (const attribute of opening.attributes || []) this.attribute(attribute, tag);
    for (const child of node.children) this.child(child, here);
    if (closing) {
      const end = this.row(17, closing, here);
      if (closing.name) this.name(closing.name, end);
    }
    return this;
  }

  name(node, parent) {
    if (node.type === 'JSXIdentifier') return this.row(16, node, parent);
    const parts = node.type === 'JSXNamespacedName' ? [node.namespace, node.name] : memberParts(node);
    const here = this.row(node.type === 'JSXNamespacedName' ? 6 : 7, node, parent);
    for (const part of parts) this.name(part, here);
  }

  attribute(node, parent) {
    if (node.type === 'JSXSpreadAttribute') return this.spread(9, node, node.argument, parent);
    expectType(node, 'JSXAttribute');
    const here = this.row(8, node, parent);
    this.name(node.name, here);
    if (!node.value) return;
    if (node.value.type === 'StringLiteral' || node.value.type === 'Literal') this.row(10, node.value, here);
    else this.child(node.value, here);
  }

  child(node, parent) {
    if (isMarkup(node)) return this.element(node, parent);
    if (node.type === 'JSXText') return this.row(14, node, parent);
    if (node.type === 'JSXSpreadChild') return this.spread(13, node, node.expression, parent);
    expectType(node, 'JSXExpressionContainer');
    const here = this.row(11, node, parent);
    if (node.expression.type === 'JSXEmptyExpression') this.row(12, node.expression, here);
    else this.expression(node.expression, here);
  }

  spread(kind, node, expression, parent) {
    this.expression(expression, this.row(kind, node, parent));
  }

  // An expression holds the outermost elements and fragments in it, in order.
  expression(node, parent) {
    const here = this.row(15, node, parent);
    for (const element of outermost(node)) this.element(element, here);
  }
}

function memberParts(node) {
  if (node.type !== 'JSXMemberExpression') return [node];
  return [...memberParts(node.object), node.property];
}

function outermost(node) {
  if (isMarkup(node)) return [node];
  const inside = Object.values(node).flat().filter((value) => value && typeof value.type === 'string');
  return inside.flatMap(outermost).sort((one, other) => one.start - other.start);
}

function expectType(node, type) {
  if (node.type !== type) throw new Error(`a ${node.type} where only a ${type} is known`);
}

// From an offset in UTF-16 to one in UTF-8.
function byteOffsets(code) {
  if (Buffer.byteLength(code) === code.length) return (offset) => offset;
  const bytes = [0];
  for (let at = 0; at < code.length; at++) bytes.push(bytes[at] + bytesOfUnit(code.charCodeAt(at)));
  return (offset) => bytes[offset];
}

// Each half of a surrogate pair stands for two of its four bytes.
function bytesOfUnit(unit) {
  if (unit < 0x80) return 1;
  return unit < 0x800 || (unit >= 0xd800 && unit < 0xe000) ? 2 : 3;
}

// ---- TypeScript: errors of the parser, and those of the checker that are about grammar

const FILE = 'item.jsx';

function typescriptFile(code) {
  return ts().createSourceFile(FILE, code, ts().ScriptTarget.ESNext, false, ts().ScriptKind.JSX);
}

function typescriptAnswer(code) {
  return unlessRefused(() => {
    const file = typescriptFile(code);
    if (file.parseDiagnostics.length > 0) return { no: diagnostic(file.parseDiagnostics[0]) };
    return isOneExpression(file) ? { rows: null } : { no: 'not one expression' };
  }, () => false);
}

// A statement that ends behind its expression has a semicolon.
function isOneExpression({ statements }) {
  const [first] = statements;
  return statements.length === 1 && ts().isExpressionStatement(first) && first.end === first.expression.end;
}

function checkerAnswer(code) {
  if (typescriptAnswer(code).no) return undefined;
  return unlessRefused(() => {
    const file = typescriptFile(code);
    const program = ts().createProgram([FILE], checkerSettings(), hostOf(file));
    const errors = [...program.getSyntacticDiagnostics(file), ...program.getSemanticDiagnostics(file)].filter(isGrammar);
    return errors.length > 0 ? { no: diagnostic(errors[0]) } : { rows: null };
  }, () => false);
}

function checkerSettings() {
  return {
    allowJs: true, checkJs: true, noLib: true, noResolve: true, types: [],
    jsx: ts().JsxEmit.Preserve, target: ts().ScriptTarget.ESNext, module: ts().ModuleKind.ESNext,
  };
}

// Codes from 1000 and from 17000 are about grammar; the others about names, types and settings.
function isGrammar({ code }) {
  return (code >= 1000 && code < 2000) || (code >= 17000 && code < 19000);
}

function diagnostic({ code, messageText }) {
  return `TS${code}: ${ts().flattenDiagnosticMessageText(messageText, ' ')}`;
}

function hostOf(file) {
  return {
    getSourceFile: (name) => (name === FILE ? file : undefined),
    fileExists: (name) => name === FILE,
    readFile: () => undefined,
    writeFile: () => {},
    getDefaultLibFileName: () => 'lib.d.ts',
    getCurrentDirectory: () => '/',
    getCanonicalFileName: (name) => name,
    useCaseSensitiveFileNames: () => true,
    getNewLine: () => '\n',
  };
}

// ---- esbuild: a module is transformed, or not

async function esbuildAnswer(code) {
  try {
    await esbuild().transform(`export default (\n${code}\n)`, { loader: 'jsx', jsx: 'preserve', format: 'esm', logLevel: 'silent' });
    return { rows: null };
  } catch (error) {
    if (!Array.isArray(error.errors) || error.errors.length === 0) throw error;
    return { no: error.errors[0].text };
  }
}

// ---- items

const utf8 = new TextDecoder('utf-8', { fatal: true, ignoreBOM: true });

function* itemsOf(bytes) {
  for (let at = 0; at < bytes.length;) {
    const reading = String.fromCharCode(bytes[at]);
    const start = at + 5;
    if (!'sr'.includes(reading) || start > bytes.length) throw new Error('bad item');
    at = start + bytes.readUInt32LE(at + 1);
    if (at > bytes.length) throw new Error('bad item');
    yield { reading, code: codeOf(reading, bytes.subarray(start, at)) };
  }
}

function codeOf(reading, bytes) {
  try {
    const text = utf8.decode(bytes);
    return reading === 'r' ? `<>${text}</>` : text;
  } catch (error) {
    if (error.code !== 'ERR_ENCODING_INVALID_ENCODED_DATA') throw error;
    return null;
  }
}

const PARSERS = {
  babel: (item) => treeAnswer(babelTree, item),
  'acorn-jsx': (item) => treeAnswer(acornTree, item),
  typescript: (item) => typescriptAnswer(item.code),
  checker: (item) => checkerAnswer(item.code),
  esbuild: (item) => esbuildAnswer(item.code),
};

async function answerOf(names, item) {
  if (item.code === null) return null;
  const answers = {};
  for (const name of names) answers[name] = await PARSERS[name](item);
  return answers;
}

const AT_ONCE = 100;

async function main(names) {
  const items = [...itemsOf(fs.readFileSync(0))];
  for (let at = 0; at < items.length; at += AT_ONCE) {
    const answers = await Promise.all(items.slice(at, at + AT_ONCE).map((item) => answerOf(names, item)));
    const lines = answers.map((answer) => JSON.stringify(answer) + '\n').join('');
    await new Promise((written) => process.stdout.write(lines, written));
  }
}

function versions() {
  const version = (name) => require(name + '/package.json').version;
  console.log(`node ${process.version}`);
  console.log(`babel: @babel/parser ${version('@babel/parser')}`);
  console.log(`acorn-jsx: acorn-jsx ${version('acorn-jsx')} on acorn ${version('acorn')}`);
  console.log(`typescript: ${ts().version}`);
  console.log(`esbuild: ${esbuild().version}`);
}

const words = process.argv.slice(2);
if (words[0] === '--versions') versions();
else main(words.length > 0 ? words : Object.keys(PARSERS));
