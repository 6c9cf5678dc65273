// The number of an office's refusal, for the log: the code in the body of a 409.
function note(request, data, flags) {
    const found = request.status === 409 && data.match(/"code":([0-9]+)/);
    if (found) {
        request.variables.refused = found[1];
    }
    request.sendBuffer(data, flags);
}

// Whether a request that waits for a replica has waited for so long that no more is asked: 1, or nothing. A try that is begun
// may take three seconds, so that it is some eight in all.
const PATIENCE = 6;
function late(request) {
    const since = Number(request.headersIn['Again-Since'] || 0);
    return since && Date.now() / 1000 - since > PATIENCE ? '1' : '';
}

export default { note, late };
