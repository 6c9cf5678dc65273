// A fresh basic UMID (SMPTE ST 330) for a new clip: its material number is a random UUID.

/** @param {Uint8Array} bytes */
function hex(bytes) {
    return [...bytes].map((byte) => byte.toString(16).padStart(2, '0')).join('');
}

export function freshUmid() {
    const material = crypto.getRandomValues(new Uint8Array(16));
    material[6] = (material[6] & 0x0f) | 0x40;
    material[8] = (material[8] & 0x3f) | 0x80;
    return `060a2b340101010501010d2013000000${hex(material)}`;
}
