// The types of ira.mjs, which says what each function does.
export type Text = string | Uint8Array;
export type Values = Record<string, any>;

export interface Reply {
  status: number;
  text: string;
  values: Values | null;
  more: Values[];
  files: Uint8Array[];
  page: string;
}

export interface Named {
  names?: string[];
}
export interface Moment extends Named {
  at?: number[];
  question?: Text;
  ask?: string;
  case?: number;
}
export interface Expected {
  over?: boolean;
  leads?: number[] | 'any' | null;
}
export interface Explained extends Named, Expected {
  question?: Text;
  ask?: string;
  certificate?: Text;
  case?: number;
}

export class Refused extends Error {
  reply: Reply;
}

export const YES: 0, NO: 1, REFUSED: 2, OUT_OF_MEMORY: 3, NO_REQUEST: 4, NO_ROOM: 5;
export const LOG: number, LOGS: number, EXPLAIN_LOG: number, EXPLAIN: number, EXPLAIN_QUESTION: number,
  EXPLAIN_CERT: number, SHOW: number, EVENTS: number, DRAW: number, DECIDE: number, CHECK: number, PAIRS: number,
  UPGRADE: number, MEND: number, RUN: number, PAGE: number, JSON_LINES: number, LEADERS: number, OVERVIEW: number,
  ASK: number;
export const ANY: bigint, ALL: [bigint, bigint];

export function serve(values: (number | bigint)[], files?: [string, Text][]): {status: number, parts: Uint8Array[]};
export function log(text: Text, options?: {name?: string}): Reply;
export function logs(texts: Text[], options?: Named & Expected): Reply;
export function explain(texts: Text[], options?: Explained): Reply;
export function audit(folder: string, options?: {over?: boolean, leads?: number[] | string | null}): Reply;
export function assertElection(folder: string, options?: {leaders?: number[] | string | null, over?: boolean}): void;
export function readLogs(folder: string): {texts: Uint8Array[], names: string[]};
export function nodesOf(text: Text): number | null;
export function led(leads?: number[] | 'any' | null): (number | bigint)[];
export function show(texts: Text[], options?: Moment & {events?: boolean, leads?: number[] | 'any' | null}): Reply;
export function draw(texts: Text[], options?: Moment & {columns?: (number | bigint)[], page?: boolean}): Reply;
export function decide(texts: Text[], question?: Text | null, options?: Named & {ask?: string}): Reply;
export function check(texts: Text[], question: Text, certificate: Text, options?: Named): Reply;
export function pairs(nodes: number): string;
export function ask(nodes: number, sentence: string): string;
export function upgrade(texts: Text[], options?: Named): Reply;
export function mend(texts: Text[], options?: Named & {initiators?: boolean}): Reply;
export function run(nodes: number, seed: number | bigint,
  options?: {initiators?: number, draws?: number, cap?: number, terms?: number}): Reply;
