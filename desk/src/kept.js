// What the browser keeps from one visit to the next, where it lets a page from disk do so.

const PREFIX = 'lifgorund.';

export function kept(name) {
    try {
        return localStorage.getItem(PREFIX + name);
    } catch {
        return null;
    }
}

export function keep(name, text) {
    try {
        localStorage.setItem(PREFIX + name, text);
    } catch {
        // Refused or full: the page works without.
    }
}
