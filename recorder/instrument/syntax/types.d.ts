// The nodes of acorn's tree (ESTree), as far as the walk uses them, and the options of `instrument`. For the type check only.

import type { Scope } from './scopes';

interface Base {
  start: number;
  end: number;
  /** The scope that the node begins; set by the first walk. */
  scope?: Scope;
}

export interface Program extends Base { type: 'Program', body: Statement[], sourceType: 'script' | 'module' }

// ---- names and literals
export interface Identifier extends Base { type: 'Identifier', name: string }
export interface PrivateIdentifier extends Base { type: 'PrivateIdentifier', name: string }
export interface Literal extends Base { type: 'Literal', value: unknown, raw: string, regex?: { pattern: string, flags: string }, bigint?: string }
export interface ThisExpression extends Base { type: 'ThisExpression' }
export interface Super extends Base { type: 'Super' }
export interface TemplateElement extends Base { type: 'TemplateElement' }
export interface TemplateLiteral extends Base { type: 'TemplateLiteral', quasis: TemplateElement[], expressions: Expression[] }
export interface MetaProperty extends Base { type: 'MetaProperty', meta: Identifier, property: Identifier }

// ---- expressions
export interface ArrayExpression extends Base { type: 'ArrayExpression', elements: (Expression | SpreadElement | null)[] }
export interface ObjectExpression extends Base { type: 'ObjectExpression', properties: (Property | SpreadElement)[] }
export interface Property extends Base {
  type: 'Property';
  key: Expression;
  value: Expression;
  kind: 'init' | 'get' | 'set';
  computed: boolean;
  shorthand: boolean;
  method: boolean;
}
export interface SpreadElement extends Base { type: 'SpreadElement', argument: Expression }
export interface MemberExpression extends Base {
  type: 'MemberExpression';
  object: Expression | Super;
  property: Expression | PrivateIdentifier;
  computed: boolean;
  optional: boolean;
}
export interface CallExpression extends Base { type: 'CallExpression', callee: Expression | Super, arguments: Argument[], optional: boolean }
export interface NewExpression extends Base { type: 'NewExpression', callee: Expression, arguments: Argument[] }
export interface ChainExpression extends Base { type: 'ChainExpression', expression: Expression }
export interface ImportExpression extends Base { type: 'ImportExpression', source: Expression, options?: Expression | null }
export interface TaggedTemplateExpression extends Base { type: 'TaggedTemplateExpression', tag: Expression, quasi: TemplateLiteral }
export interface UnaryExpression extends Base { type: 'UnaryExpression', operator: string, argument: Expression }
export interface UpdateExpression extends Base { type: 'UpdateExpression', operator: '++' | '--', prefix: boolean, argument: Expression }
export interface BinaryExpression extends Base { type: 'BinaryExpression', operator: string, left: Expression | PrivateIdentifier, right: Expression }
export interface LogicalExpression extends Base { type: 'LogicalExpression', operator: string, left: Expression, right: Expression }
export interface AssignmentExpression extends Base { type: 'AssignmentExpression', operator: string, left: Pattern, right: Expression }
export interface ConditionalExpression extends Base {
  type: 'ConditionalExpression';
  test: Expression;
  consequent: Expression;
  alternate: Expression;
}
export interface SequenceExpression extends Base { type: 'SequenceExpression', expressions: Expression[] }
export interface AwaitExpression extends Base { type: 'AwaitExpression', argument: Expression }
export interface YieldExpression extends Base { type: 'YieldExpression', argument: Expression | null, delegate: boolean }
export interface ParenthesizedExpression extends Base { type: 'ParenthesizedExpression', expression: Expression }

// ---- functions and classes
interface FunctionBase extends Base {
  id: Identifier | null;
  params: Pattern[];
  body: BlockStatement | Expression;
  async: boolean;
  generator: boolean;
  /** The parameters through which the function gets the window. */
  windowNames?: Set<string>;
  /** Whether its code, or that of an arrow in it, has `this`. */
  usesThis?: boolean;
  /** Whether it is a method, or a constructor of a class that extends another: a call of it has no object of its own from the start. */
  isMethod?: boolean;
}
export interface FunctionDeclaration extends FunctionBase { type: 'FunctionDeclaration' }
export interface FunctionExpression extends FunctionBase { type: 'FunctionExpression' }
export interface ArrowFunctionExpression extends FunctionBase { type: 'ArrowFunctionExpression' }
interface ClassBase extends Base { id: Identifier | null, superClass: Expression | null, body: ClassBody }
export interface ClassDeclaration extends ClassBase { type: 'ClassDeclaration' }
export interface ClassExpression extends ClassBase { type: 'ClassExpression' }
export interface ClassBody extends Base { type: 'ClassBody', body: (MethodDefinition | PropertyDefinition | StaticBlock)[] }
export interface MethodDefinition extends Base {
  type: 'MethodDefinition';
  key: Expression | PrivateIdentifier;
  value: FunctionExpression;
  computed: boolean;
  static: boolean;
  kind: string;
}
export interface PropertyDefinition extends Base {
  type: 'PropertyDefinition';
  key: Expression | PrivateIdentifier;
  value: Expression | null;
  computed: boolean;
  static: boolean;
}
export interface StaticBlock extends Base { type: 'StaticBlock', body: Statement[] }

// ---- patterns
export interface ObjectPattern extends Base {
  type: 'ObjectPattern';
  properties: (PatternProperty | RestElement)[];
  /** The text of the variable that the pattern takes apart, and where it is. */
  taken?: string;
  takenAt?: [start: number, end: number];
}
export interface PatternProperty extends Base { type: 'Property', key: Expression, value: Pattern, computed: boolean, shorthand: boolean }
export interface ArrayPattern extends Base { type: 'ArrayPattern', elements: (Pattern | null)[] }
export interface RestElement extends Base { type: 'RestElement', argument: Pattern }
export interface AssignmentPattern extends Base { type: 'AssignmentPattern', left: Pattern, right: Expression }

// ---- statements
export interface ExpressionStatement extends Base { type: 'ExpressionStatement', expression: Expression, directive?: string }
export interface BlockStatement extends Base { type: 'BlockStatement', body: Statement[] }
export interface EmptyStatement extends Base { type: 'EmptyStatement' }
export interface DebuggerStatement extends Base { type: 'DebuggerStatement' }
export interface WithStatement extends Base { type: 'WithStatement', object: Expression, body: Statement }
export interface ReturnStatement extends Base { type: 'ReturnStatement', argument: Expression | null }
export interface ThrowStatement extends Base { type: 'ThrowStatement', argument: Expression }
export interface LabeledStatement extends Base { type: 'LabeledStatement', label: Identifier, body: Statement }
export interface BreakStatement extends Base { type: 'BreakStatement', label: Identifier | null }
export interface ContinueStatement extends Base { type: 'ContinueStatement', label: Identifier | null }
export interface IfStatement extends Base { type: 'IfStatement', test: Expression, consequent: Statement, alternate: Statement | null }
export interface SwitchStatement extends Base { type: 'SwitchStatement', discriminant: Expression, cases: SwitchCase[] }
export interface SwitchCase extends Base { type: 'SwitchCase', test: Expression | null, consequent: Statement[] }
export interface TryStatement extends Base {
  type: 'TryStatement';
  block: BlockStatement;
  handler: CatchClause | null;
  finalizer: BlockStatement | null;
}
export interface CatchClause extends Base { type: 'CatchClause', param: Pattern | null, body: BlockStatement }
export interface WhileStatement extends Base { type: 'WhileStatement', test: Expression, body: Statement }
export interface DoWhileStatement extends Base { type: 'DoWhileStatement', test: Expression, body: Statement }
export interface ForStatement extends Base {
  type: 'ForStatement';
  init: VariableDeclaration | Expression | null;
  test: Expression | null;
  update: Expression | null;
  body: Statement;
}
interface ForEachBase extends Base { left: VariableDeclaration | Pattern, right: Expression, body: Statement, await?: boolean }
export interface ForInStatement extends ForEachBase { type: 'ForInStatement' }
export interface ForOfStatement extends ForEachBase { type: 'ForOfStatement' }
export interface VariableDeclaration extends Base { type: 'VariableDeclaration', kind: DeclarationKind, declarations: VariableDeclarator[] }
export interface VariableDeclarator extends Base { type: 'VariableDeclarator', id: Pattern, init: Expression | null }
export type DeclarationKind = 'var' | 'let' | 'const' | 'using' | 'await using';

// ---- modules
export interface ImportDeclaration extends Base { type: 'ImportDeclaration', specifiers: ImportedName[], source: Literal }
export interface ImportSpecifier extends Base { type: 'ImportSpecifier', imported: Identifier | Literal, local: Identifier }
export interface ImportDefaultSpecifier extends Base { type: 'ImportDefaultSpecifier', local: Identifier }
export interface ImportNamespaceSpecifier extends Base { type: 'ImportNamespaceSpecifier', local: Identifier }
export type ImportedName = ImportSpecifier | ImportDefaultSpecifier | ImportNamespaceSpecifier;
export interface ExportSpecifier extends Base { type: 'ExportSpecifier', local: Identifier | Literal, exported: Identifier | Literal }
export interface ExportNamedDeclaration extends Base {
  type: 'ExportNamedDeclaration';
  declaration: VariableDeclaration | FunctionDeclaration | ClassDeclaration | null;
  specifiers: ExportSpecifier[];
  source: Literal | null;
}
export interface ExportDefaultDeclaration extends Base {
  type: 'ExportDefaultDeclaration';
  declaration: FunctionDeclaration | ClassDeclaration | Expression;
}
export interface ExportAllDeclaration extends Base { type: 'ExportAllDeclaration', exported: Identifier | Literal | null, source: Literal }

// ---- groups
export type Expression = Identifier | Literal | ThisExpression | TemplateLiteral | MetaProperty | ArrayExpression | ObjectExpression | MemberExpression
  | CallExpression | NewExpression | ChainExpression | ImportExpression | TaggedTemplateExpression | UnaryExpression | UpdateExpression | BinaryExpression
  | LogicalExpression | AssignmentExpression | ConditionalExpression | SequenceExpression | AwaitExpression | YieldExpression | ParenthesizedExpression
  | FunctionExpression | ArrowFunctionExpression | ClassExpression;
export type Argument = Expression | SpreadElement;
export type Pattern = Identifier | MemberExpression | ObjectPattern | ArrayPattern | RestElement | AssignmentPattern;
export type FunctionNode = FunctionDeclaration | FunctionExpression | ArrowFunctionExpression;
export type ClassNode = ClassDeclaration | ClassExpression;
export type ForEachStatement = ForInStatement | ForOfStatement;
export type Statement = ExpressionStatement | BlockStatement | EmptyStatement | DebuggerStatement | WithStatement | ReturnStatement | ThrowStatement
  | LabeledStatement | BreakStatement | ContinueStatement | IfStatement | SwitchStatement | TryStatement | WhileStatement | DoWhileStatement
  | ForStatement | ForInStatement | ForOfStatement | VariableDeclaration | FunctionDeclaration | ClassDeclaration
  | ImportDeclaration | ExportNamedDeclaration | ExportDefaultDeclaration | ExportAllDeclaration;
export type Node = Program | Expression | Super | PrivateIdentifier | TemplateElement | Property | SpreadElement | Pattern | PatternProperty | Statement
  | ClassBody | MethodDefinition | PropertyDefinition | StaticBlock | SwitchCase | CatchClause | VariableDeclarator | ImportedName | ExportSpecifier;

// ---- what is instrumented

/** What is at a site: the name of the function of a scope, or from where to where the text of an object is. */
export interface About { scope?: string, object?: [start: number, end: number] }

/** The names of the browser, and those of them that a page takes for its own (own-names.js). */
export interface Builtins {
  has(name: string): boolean;
  take?(program: Program): { name: string, isVar: boolean }[];
  /** Takes what `take` answered for the same text. */
  takeNames?(names: string[]): void;
  /** The same text for all that answer the same. */
  signature?(): string;
}

/** `address` is the code of a `javascript:` address. */
export type KindOfCode = 'script' | 'module' | 'handler' | 'address';

export interface Options {
  kind: KindOfCode;
  /** Whether only global variables are marked, or objects and closures too. */
  depth?: 'globals' | 'objects';
  /** Whether first values are marked too. */
  keepsAll?: boolean;
  builtins: Builtins;
  /** Returns a number for a place of the code. */
  site(offset: number, about?: About): number;
  /** The number of the object that a module's variables belong to. */
  module?: number;
  /** The number of the module that another one names, or undefined. */
  numberOfModule?(name: string): number | undefined;
  /** Called for each function that has a name. */
  named?(start: number, end: number, name: string): void;
  /** Called for each part of the code that is a known library, with the name that its file would have. */
  library?(start: number, end: number, name: string): void;
  /** The type of the event of a handler. */
  type?: string;
}

export interface Edit { start: number, end: number, insert: string }

/**
 * Why a text is not marked: it is no JavaScript but a page or data, the parser does not know its syntax, or it is nested too deeply; and where, with line
 * and column from 1.
 */
export interface Fault { kind: 'other' | 'syntax' | 'depth', message: string, offset: number, line: number, column: number }
