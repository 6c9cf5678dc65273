// The sum under which nginx keeps what it was told of a session or a token: these don't stand on the disk themselves.
import crypto from 'crypto';

function knownBy(request) {
    const said = request.variables;
    return crypto.createHash('sha256').update(`${said.ticket} ${said.token}`).digest('hex');
}

export default { knownBy };
