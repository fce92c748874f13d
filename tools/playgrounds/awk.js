'use strict';
// Runs the rules of tools/whys, which are AWK, in JavaScript, so that the page tells of a refused line what tools/why tells. A text is its
// bytes, a letter for each, as in AWK with LC_ALL=C. This knows of AWK what those rules need, and refuses the rest.

const Awk = (() => {
  // ---- tokens

  const KEYWORDS = new Set(['function', 'if', 'else', 'while', 'do', 'for', 'in', 'return', 'print', 'break', 'continue', 'delete', 'END']);
  const BUILTINS = new Set(['split', 'substr', 'index', 'length', 'match', 'gsub', 'sub', 'tolower', 'int']);
  const OPERATORS = /^(?:\+\+|--|\+=|-=|&&|\|\||==|!=|<=|>=|!~|[-+*/%=<>!~?:;,(){}[\]$])/;
  const ESCAPES = { n: '\n', t: '\t', r: '\r', '"': '"', '/': '/', '\\': '\\' };

  const unescaped = text => text.replace(/\\([0-7]{1,3}|.)/g, (whole, what) => {
    if (/^[0-7]/.test(what)) return String.fromCharCode(parseInt(what, 8));
    return what in ESCAPES ? ESCAPES[what] : whole;
  });

  // A pattern that stands between slashes; an octal number in it is a byte.
  const asPattern = text => text.replace(/\\([0-7]{3})/g, (_, digits) => `\\x${parseInt(digits, 8).toString(16).padStart(2, '0')}`);

  const isOperand = last => last && (['number', 'text', 'name'].includes(last.kind) || [')', ']', '++', '--'].includes(last.text));

  function wordToken(text, next) {
    if (KEYWORDS.has(text)) return { kind: 'keyword', text };
    if (BUILTINS.has(text)) return { kind: 'builtin', text };
    return { kind: next === '(' ? 'call' : 'name', text };
  }

  function tokensOf(source) {
    const tokens = [];
    let at = 0;
    const take = pattern => {
      const found = pattern.exec(source.slice(at, at + 2000));
      if (found) at += found[0].length;
      return found;
    };
    while (at < source.length) {
      const last = tokens[tokens.length - 1];
      let found;
      if (take(/^(?:[ \t]|\\\n|#[^\n]*)+/)) continue;
      if (take(/^\n/)) tokens.push({ kind: 'line', text: '\n' });
      else if ((found = take(/^"((?:[^"\\]|\\[^])*)"/))) tokens.push({ kind: 'text', text: unescaped(found[1]) });
      else if (source[at] === '/' && !isOperand(last) && (found = take(/^\/((?:\[(?:\\.|[^\]\\])*\]|\\.|[^/\\[])*)\//)))
        tokens.push({ kind: 'pattern', text: asPattern(found[1]) });
      else if ((found = take(/^[0-9]+/))) tokens.push({ kind: 'number', text: found[0] });
      else if ((found = take(/^[A-Za-z_][A-Za-z0-9_]*/))) tokens.push(wordToken(found[0], source[at]));
      else if ((found = take(OPERATORS))) tokens.push({ kind: 'operator', text: found[0] });
      else throw new Error(`awk: no token at ${source.slice(at, at + 20)}`);
    }
    return [...tokens, { kind: 'end', text: '' }];
  }

  // ---- trees

  function treeOf(tokens) {
    let at = 0;
    const peek = () => tokens[at], is = text => peek().text === text && peek().kind !== 'text' && peek().kind !== 'pattern';
    const skipLines = () => { while (peek().kind === 'line') at++; };
    const skipEnds = () => { while (peek().kind === 'line' || is(';')) at++; };
    function want(text) {
      if (!is(text)) throw new Error(`awk: ${text} is wanted, and there is ${peek().text}`);
      at++;
    }
    function takes(...texts) {
      const { kind, text } = peek();
      if (kind === 'text' || kind === 'pattern' || !texts.includes(text)) return null;
      at++;
      return text;
    }

    // Each level of operators, the loosest first.
    function expression() {
      const left = condition(), op = isPlace(left) && takes('=', '+=', '-=');
      if (!op) return left;
      skipLines();
      return { is: 'assign', op, left, right: expression() };
    }
    const isPlace = node => node.is === 'name' || node.is === 'element';
    function condition() {
      const test = either();
      if (!takes('?')) return test;
      skipLines();
      const yes = expression();
      skipLines();
      want(':');
      skipLines();
      return { is: 'condition', test, yes, no: expression() };
    }
    const chain = (next, op, name) => () => {
      let left = next();
      while (takes(op)) {
        skipLines();
        left = { is: name, left, right: next() };
      }
      return left;
    };
    function member() {
      let left = matched();
      while (takes('in')) left = { is: 'in', keys: left.is === 'list' ? left.items : [left], name: tokens[at++].text };
      return left;
    }
    function matched() {
      let left = compared(), op;
      while ((op = takes('~', '!~'))) left = { is: 'match', op, left, right: compared() };
      return left;
    }
    function compared() {
      const left = joined(), op = takes('<', '<=', '==', '!=', '>', '>=');
      return op ? { is: 'compare', op, left, right: joined() } : left;
    }
    const beginsOperand = () => ['number', 'text', 'name', 'call', 'builtin'].includes(peek().kind) || is('(') || is('$');
    function joined() {
      let left = sum();
      while (beginsOperand()) left = { is: 'join', left, right: sum() };
      return left;
    }
    function sum() {
      let left = product(), op;
      while ((op = takes('+', '-'))) left = { is: 'number', op, left, right: product() };
      return left;
    }
    function product() {
      let left = unary(), op;
      while ((op = takes('*', '/', '%'))) left = { is: 'number', op, left, right: unary() };
      return left;
    }
    function unary() {
      const op = takes('!', '-', '+', '++', '--');
      if (!op) return postfix();
      const of = unary();
      return op === '++' || op === '--' ? { is: 'step', op, of, isBefore: true } : { is: 'unary', op, of };
    }
    function postfix() {
      const of = primary(), op = isPlace(of) && takes('++', '--');
      return op ? { is: 'step', op, of, isBefore: false } : of;
    }
    function listTo(close) {
      const items = [];
      skipLines();
      while (!takes(close)) {
        items.push(expression());
        skipLines();
        if (takes(',')) skipLines();
      }
      return items;
    }
    function primary() {
      const { kind, text } = tokens[at++];
      if (kind === 'number') return { is: 'constant', value: Number(text) };
      if (kind === 'text') return { is: 'constant', value: text };
      if (kind === 'pattern') return { is: 'pattern', text };
      if (kind === 'call' || kind === 'builtin') {
        want('(');
        return { is: kind, name: text, items: listTo(')') };
      }
      if (kind === 'name') return takes('[') ? { is: 'element', name: text, keys: listTo(']') } : { is: 'name', name: text };
      if (text === '$') {
        at++;
        return { is: 'record' };
      }
      if (text !== '(') throw new Error(`awk: ${text} begins no expression`);
      const items = listTo(')');
      return items.length === 1 ? { is: 'group', of: items[0] } : { is: 'list', items };
    }
    const both = chain(member, '&&', 'and'), either = chain(both, '||', 'or');

    // ---- statements

    function block() {
      want('{');
      const body = [];
      skipEnds();
      while (!takes('}')) {
        body.push(statement());
        skipEnds();
      }
      return { is: 'block', body };
    }
    function inner() {
      skipLines();
      return statement();
    }
    function ifStatement() {
      want('(');
      const test = expression();
      want(')');
      const yes = inner(), back = at;
      skipEnds();
      if (takes('else')) return { is: 'if', test, yes, no: inner() };
      at = back;
      return { is: 'if', test, yes, no: null };
    }
    function forStatement() {
      want('(');
      if (peek().kind === 'name' && tokens[at + 1].text === 'in') {
        const name = tokens[at].text, array = tokens[at + 2].text;
        at += 3;
        want(')');
        return { is: 'each', name, array, body: inner() };
      }
      const parts = [];
      for (const end of [';', ';', ')']) {
        parts.push(is(end) ? null : expression());
        want(end);
        skipLines();
      }
      return { is: 'for', parts, body: inner() };
    }
    function whileStatement() {
      want('(');
      const test = expression();
      want(')');
      return { is: 'while', test, body: inner() };
    }
    function doStatement() {
      const body = inner();
      skipEnds();
      want('while');
      want('(');
      const test = expression();
      want(')');
      return { is: 'do', test, body };
    }
    function printStatement() {
      const items = [expression()];
      while (takes(',')) items.push(expression());
      return { is: 'print', items };
    }
    const isOver = () => peek().kind === 'line' || is(';') || is('}');
    const STATEMENTS = {
      if: ifStatement, for: forStatement, while: whileStatement, do: doStatement, print: printStatement,
      return: () => ({ is: 'return', of: isOver() ? null : expression() }),
      break: () => ({ is: 'jump', text: 'break' }), continue: () => ({ is: 'jump', text: 'continue' }),
      delete: () => ({ is: 'delete', place: primary() }),
    };
    function statement() {
      if (is('{')) return block();
      if (peek().kind === 'keyword') {
        const { text } = tokens[at++];
        if (!(text in STATEMENTS)) throw new Error(`awk: ${text} begins no statement`);
        return STATEMENTS[text]();
      }
      return { is: 'expression', of: expression() };
    }

    // ---- the program

    const program = { functions: [], each: [], end: [] };
    for (skipEnds(); peek().kind !== 'end'; skipEnds()) {
      if (takes('function')) {
        const { text: name } = tokens[at++];
        want('(');
        const params = listTo(')').map(({ name: param }) => param);
        program.functions.push({ name, params, body: block() });
      } else (takes('END') ? program.end : program.each).push(block());
    }
    return program;
  }

  // ---- arrays: a name is one if it is used as one; a parameter also if it is handed on as one

  function* nodesIn(node) {
    if (!node || typeof node !== 'object') return;
    if (Array.isArray(node)) { for (const one of node) yield* nodesIn(one); return; }
    if (node.is) yield node;
    for (const value of Object.values(node)) yield* nodesIn(value);
  }

  function arraysOf(program) {
    const scopes = [...program.functions, { name: '', params: [], body: [...program.each, ...program.end] }];
    const global = new Set(), local = new Map(scopes.map(({ name }) => [name, new Set()]));
    let isNew = true;
    const note = (scope, name) => {
      const found = scope.params.includes(name) ? local.get(scope.name) : global;
      if (!found.has(name)) { found.add(name); isNew = true; }
    };
    const handed = (scope, { name, items }) => {
      const { params } = scopes.find(one => one.name === name);
      items.forEach((item, n) => { if (item.is === 'name' && local.get(name).has(params[n])) note(scope, item.name); });
    };
    while (isNew) {
      isNew = false;
      for (const scope of scopes) {
        for (const node of nodesIn(scope.body)) {
          if (node.is === 'element' || node.is === 'in') note(scope, node.name);
          else if (node.is === 'each') note(scope, node.array);
          else if (node.is === 'builtin' && node.name === 'split') note(scope, node.items[1].name);
          else if (node.is === 'delete' && node.place.is === 'name') note(scope, node.place.name);
          else if (node.is === 'call') handed(scope, node);
        }
      }
    }
    return { global, local };
  }

  // ---- JavaScript

  function codeOf(program) {
    const arrays = arraysOf(program);
    let params = [];
    const place = name => params.includes(name) ? `l_${name}` : `g.${name}`;
    const keys = list => `key(${list.map(code).join(', ')})`;
    const write = (node, value) => node.is === 'name' ? `(${place(node.name)} = ${value})` : `put(${place(node.name)}, ${keys(node.keys)}, ${value})`;
    const pattern = node => node.is === 'pattern' ? `/${node.text}/s` : (() => { throw new Error('awk: a pattern is wanted'); })();
    const CODES = {
      constant: ({ value }) => JSON.stringify(value),
      name: ({ name }) => place(name),
      element: ({ name, keys: list }) => `get(${place(name)}, ${keys(list)})`,
      record: () => 'g.record',
      group: ({ of }) => `(${code(of)})`,
      call: ({ name, items }) => `f_${name}(${items.map(code).join(', ')})`,
      builtin: builtinCode,
      assign: ({ op, left, right }) => write(left, op === '=' ? code(right) : `number(${code(left)}) ${op[0]} number(${code(right)})`),
      step: ({ op, of, isBefore }) => {
        const more = write(of, `number(${code(of)}) ${op[0]} 1`);
        return isBefore ? more : `(${more} ${op === '++' ? '-' : '+'} 1)`;
      },
      condition: ({ test, yes, no }) => `(truth(${code(test)}) ? ${code(yes)} : ${code(no)})`,
      and: ({ left, right }) => `(truth(${code(left)}) && truth(${code(right)}) ? 1 : 0)`,
      or: ({ left, right }) => `(truth(${code(left)}) || truth(${code(right)}) ? 1 : 0)`,
      in: ({ keys: list, name }) => `(${place(name)}.has(${keys(list)}) ? 1 : 0)`,
      match: ({ op, left, right }) => `(${pattern(right)}.test(text(${code(left)})) ${op === '~' ? '' : '=== false '}? 1 : 0)`,
      compare: ({ op, left, right }) => `(compare(${code(left)}, ${code(right)}) ${op === '==' ? '===' : op === '!=' ? '!==' : op} 0 ? 1 : 0)`,
      join: ({ left, right }) => `(text(${code(left)}) + text(${code(right)}))`,
      number: ({ op, left, right }) => `(number(${code(left)}) ${op} number(${code(right)}))`,
      unary: ({ op, of }) => op === '!' ? `(truth(${code(of)}) ? 0 : 1)` : `(${op}number(${code(of)}))`,
      pattern: node => `(${pattern(node)}.test(g.record) ? 1 : 0)`,
      block: ({ body }) => `{ ${body.map(code).join('\n')} }`,
      expression: ({ of }) => `${code(of)};`,
      if: ({ test, yes, no }) => `if (truth(${code(test)})) { ${code(yes)} }${no ? ` else { ${code(no)} }` : ''}`,
      for: ({ parts: [first, test, next], body }) =>
        `for (${first ? code(first) : ''}; ${test ? `truth(${code(test)})` : ''}; ${next ? code(next) : ''}) { ${code(body)} }`,
      each: ({ name, array, body }) => `for (const one of [...${place(array)}.keys()]) { ${place(name)} = one; ${code(body)} }`,
      while: ({ test, body }) => `while (truth(${code(test)})) { ${code(body)} }`,
      do: ({ test, body }) => `do { ${code(body)} } while (truth(${code(test)}));`,
      print: ({ items }) => `out.push([${items.map(code).join(', ')}].map(text).join(' ') + '\\n');`,
      return: ({ of }) => of ? `return ${code(of)};` : 'return;',
      jump: ({ text }) => `${text};`,
      delete: ({ place: { is, name, keys: list } }) => is === 'name' ? `${place(name)}.clear();` : `${place(name)}.delete(${keys(list)});`,
    };
    function builtinCode({ name, items }) {
      if (name === 'sub' || name === 'gsub') {
        const [from, to, target] = items;
        return `change(${pattern(from)}, text(${code(to)}), text(${code(target)}), ${name === 'gsub'}, value => ${write(target, 'value')})`;
      }
      if (name === 'match') return `find(g, text(${code(items[0])}), ${pattern(items[1])})`;
      if (name === 'split') return `split(text(${code(items[0])}), ${place(items[1].name)}, ${code(items[2])})`;
      return `${name}_of(${items.map(code).join(', ')})`;
    }
    function code(node) {
      if (!(node.is in CODES)) throw new Error(`awk: there is no ${node.is} here`);
      return CODES[node.is](node);
    }
    const functions = program.functions.map(({ name, params: named, body }) => {
      params = named;
      const made = [...arrays.local.get(name)].map(param => `if (l_${param} === undefined) l_${param} = new Map();`);
      return `function f_${name}(${named.map(param => `l_${param}`).join(', ')}) { ${made.join(' ')} ${code(body)} }`;
    });
    params = [];
    const made = [...arrays.global].map(name => `g.${name} = new Map();`);
    const each = `for (const line of lines) { g.NR = number(g.NR) + 1; g.record = line; ${program.each.map(code).join('\n')} }`;
    return `${LIBRARY}\n${made.join(' ')}\n${functions.join('\n')}\n${each}\n${program.end.map(code).join('\n')}\nreturn out.join('');`;
  }

  // What the code calls. An unset value is `undefined`.
  const LIBRARY = `'use strict';
    const out = [];
    const number = value => typeof value === 'number' ? value : value === undefined ? 0 : Number((/^[ \\t]*[-+]?[0-9]+(?:[.][0-9]+)?/.exec(value) || [0])[0]);
    const text = value => value === undefined ? '' : String(value);
    const truth = value => value !== undefined && value !== 0 && value !== '';
    const compare = (a, b) => {
      const areTexts = typeof a === 'string' || typeof b === 'string', [x, y] = areTexts ? [text(a), text(b)] : [number(a), number(b)];
      return x < y ? -1 : x > y ? 1 : 0;
    };
    const key = (...parts) => parts.map(text).join('\\x1c');
    const get = (map, at) => { if (!map.has(at)) map.set(at, undefined); return map.get(at); };
    const put = (map, at, value) => { map.set(at, value); return value; };
    const length_of = value => text(value).length;
    const int_of = value => Math.trunc(number(value));
    const index_of = (value, sought) => text(value).indexOf(text(sought)) + 1;
    const tolower_of = value => text(value).replace(/[A-Z]/g, letter => letter.toLowerCase());
    const substr_of = (value, from, size) => {
      const first = Math.max(number(from), 1), past = size === undefined ? Infinity : number(from) + number(size);
      return past <= first ? '' : text(value).slice(first - 1, past - 1);
    };
    const split = (value, map, mark) => {
      const parts = mark === ' ' ? value.split(/[ \\t\\n]+/).filter(part => part !== '') : value === '' ? [] : value.split(mark);
      map.clear();
      parts.forEach((part, n) => map.set(String(n + 1), part));
      return parts.length;
    };
    const find = (g, value, pattern) => {
      const found = pattern.exec(value);
      g.RSTART = found ? found.index + 1 : 0;
      g.RLENGTH = found ? found[0].length : -1;
      return g.RSTART;
    };
    const change = (pattern, to, value, areAll, write) => {
      let count = 0;
      const changed = value.replace(new RegExp(pattern.source, areAll ? 'gs' : 's'), found => {
        count++;
        return to.replace(/\\\\&|&/g, mark => mark === '&' ? found : '&');
      });
      if (count) write(changed);
      return count;
    };`;

  // Makes a function of a program: (the bytes of an input, variables) => what is printed.
  function compile(source) {
    const run = new Function('g', 'lines', codeOf(treeOf(tokensOf(source))));
    return (input, variables) => {
      const lines = input.split('\n');
      if (lines[lines.length - 1] === '') lines.pop();
      return run({ ...variables }, lines);
    };
  }

  return { compile };
})();

if (typeof module !== 'undefined') module.exports = Awk;
