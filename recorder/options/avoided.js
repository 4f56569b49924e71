'use strict';
// What the clicks of --clicks avoid: what a test should not do to the data of a user, or to the server. Buttons and links by their words, as delete, remove,
// log out, reset.

const AVOIDED = /\b(?:quit|exit|delet(?:e|es|ing|ion)|remov(?:e|es|ing|al)|erase|destroy|discard|purge|wipe|trash|uninstall|unsubscribe|unregister|deactivate|revoke|terminate|kill|abort|(?:log|sign) ?(?:out|off)|(?:shut|power) ?(?:down|off)|restart|reboot|stop|reset|factory defaults?|(?:close|cancel) (?:my )?account)\b/i;

module.exports = { AVOIDED };
