// The login: in the colours that were chosen at the desk. Who has a session goes on to the desk: a link from another site
// comes without the cookie, and this page's own question has it.

import { startTheme } from '/theme.js';

const place = /** @type {HTMLInputElement} */ (document.getElementById('place'));

startTheme();
if (location.hash) place.value = location.hash;
const other = /** @type {HTMLAnchorElement | null} */ (document.getElementById('other'));
if (other && place.value) other.href = `/login/sign-on?place=${encodeURIComponent(place.value)}`;
const answer = await fetch('/me', { cache: 'no-store' });
if (answer.ok) location.replace(`/${place.value}`);
