'use strict';
// A file that is written whole or not at all, also if the disk is full: else a WriteFault. All output files of the commands are written here. It is written
// beside its place and then renamed (atomically), so that no reader finds half of it.

const { randomBytes } = require('node:crypto');
const fs = require('node:fs');
const path = require('node:path');

/** An output file cannot be written: no fault of the program (command.js, driven/complaints.js). Made by `faultOf`. */
class WriteFault extends Error {}

/**
 * The fault of a file, with the reason of the system. Called by loads.js.
 * @param {string} file
 * @param {unknown} fault
 */
const faultOf = (file, fault) => new WriteFault(`${file} cannot be written: ${fault instanceof Error ? fault.message : fault}`);

/**
 * Whether a new file takes the place of what is there: anything but a file, as /dev/stdout, stays what it is.
 * @param {string} file
 */
const isReplaced = (file) => fs.lstatSync(file, { throwIfNoEntry: false })?.isFile() !== false;

/**
 * Writes a new file beside the old one and renames it. The file beside it must be new: a link of that name, which another user may have put there, is not
 * followed. It is made empty before the `try`: if the name is taken, nothing of others is removed.
 * @param {string} file
 * @param {string} text
 */
function replaceFile(file, text) {
  const beside = path.join(path.dirname(file), `.${path.basename(file)}.${process.pid}.${randomBytes(4).toString('hex')}`);
  fs.writeFileSync(beside, '', { flag: 'wx' });
  try {
    fs.writeFileSync(beside, text);
    fs.renameSync(beside, file);
  } catch (fault) {
    fs.rmSync(beside, { force: true });
    throw fault;
  }
}

/**
 * Writes a file whole or not at all. Throws a WriteFault, whose message a command prints.
 * @param {string} file
 * @param {string} text
 */
function writeWhole(file, text) {
  try {
    if (isReplaced(file)) replaceFile(file, text);
    else fs.writeFileSync(file, text);
  } catch (fault) {
    throw faultOf(file, fault);
  }
}

/**
 * Fails at once if a file cannot be written later. Called by record.js.
 * @param {string} file
 */
function mustTake(file) {
  try {
    fs.accessSync(isReplaced(file) ? path.dirname(file) : file, fs.constants.W_OK);
  } catch (fault) {
    throw faultOf(file, fault);
  }
}

/**
 * Makes a folder for files, or takes the one that is there.
 * @param {string} folder
 */
function makeFolder(folder) {
  try {
    fs.mkdirSync(folder, { recursive: true });
    fs.accessSync(folder, fs.constants.W_OK);
  } catch (fault) {
    throw faultOf(folder, fault);
  }
}

module.exports = { writeWhole, mustTake, makeFolder, faultOf, WriteFault };
