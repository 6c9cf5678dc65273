// Logging in and out, where the gateway has a login: a field of its answers says where each is.

import { forgetAll } from './tab.js';

/** A path of this host, and nothing that could be another one.
 * @param {Response} response @param {string} field */
function placeOf(response, field) {
    const place = response.headers.get(field) ?? '';
    return /^\/[A-Za-z0-9/_-]*$/.test(place) && !place.startsWith('//') ? place : '';
}

/** Without a session it goes to the login, which comes back to this view. What was typed is kept in the tab.
 * @param {Response} response @returns {boolean} whether the page is being left */
export function goesToLogin(response) {
    const place = response.status === 401 ? placeOf(response, 'Sign-On') : '';
    if (place) location.assign(`${place}${location.hash}`);
    return Boolean(place);
}

/** The button is there where the gateway says where to log out.
 * @param {HTMLElement} button @param {Response} response */
export function offerLogout(button, response) {
    const place = placeOf(response, 'Sign-Off');
    button.hidden = !place;
    button.onclick = async () => {
        await fetch(place, { method: 'POST', redirect: 'manual' });
        forgetAll();
        location.assign('/');
    };
}

/** Nothing more comes of a page that is being left.
 * @returns {Promise<never>} */
export function leaving() {
    return new Promise(() => {});
}
