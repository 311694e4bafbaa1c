"""PostgreSQL with a streaming replica, where every fourth client runs what only reads.

The levels are those of the primary. On the replica it is REPEATABLE READ.
"""
import postgresql
from database import make


class Transactions:
    def __init__(self, primary, replica):
        self.primary, self.replica = primary, replica

    def run(self, mops, pause=lambda: None):
        only_reads = all(f == "r" for f, _, _ in mops)
        return (self.replica if only_reads else self.primary).run(mops, pause)

    def close(self):
        self.primary.close()
        self.replica.close()


class Database(postgresql.Database):
    LEVELS = ("repeatable-read", "serializable")

    def __init__(self, folder, keys, stack):
        super().__init__(folder, keys, stack)
        self.replica = f"{folder}/replica"
        words = ["-h", folder, "-U", "postgres", "-D", self.replica, "--write-recovery-conf"]
        copy = f"{self.programs}/pg_basebackup"
        make([copy, *words, "--checkpoint=fast", "--no-sync"], **self.how)
        self.serve(stack, "replica", self.replica).close()

    def client(self, level, number=0):
        primary = super().client(level)
        if number % 4 != 3:
            return primary
        return Transactions(primary, postgresql.Transactions(self.replica, "repeatable-read"))
