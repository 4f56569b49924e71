export * from './counts.mjs';
