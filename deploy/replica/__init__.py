"""A replica of an office: it orders the messages of all clients in a log, and has its own office answer each of them.

    python3 -m replica --name a --members a,b,c --listen 127.0.0.1:8201 --office 127.0.0.1:8101 \\
        --log https://127.0.0.1:2379 --folder /var/lib/temolunai-replica/a
    python3 -m replica --name a --listen 127.0.0.1:8201 --office 127.0.0.1:8101 --log file:/var/lib/temolunai-replica/a

docs/REPLICAS.md says what it promises, and how it is run.
"""
