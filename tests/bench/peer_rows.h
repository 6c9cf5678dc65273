// What the peer asks of the tables, and writes: each text is prepared once.

static sqlite3 *db;

enum text {
    BEGIN, COMMIT, PLAN, LAST_TAPE, OF_BARCODE, IN_SLOT, ADD_TAPE, TAPES, CLIPS, OFFERS, LENT, DAYS, TOLD, DAY, OPEN,
    SEAL, BEFORE, BEHIND, NUMBERS, ADD_ITEM, ITEMS, TAKEN, CLIP, GRANT, BATCHES, ADD_BATCH,
    LINES, AIRED, ADD_LINE, TEXTS
};

#define OF_DAY " WHERE ch = ?1 AND day = ?2"
static const char *const TEXT[TEXTS] = {
    [BEGIN] = "BEGIN",
    [COMMIT] = "COMMIT",
    [PLAN] = "SELECT rate, start, slots FROM channel WHERE ch = ?1",
    [LAST_TAPE] = "SELECT n FROM tape WHERE ch = ?1 ORDER BY n DESC LIMIT 1",
    [OF_BARCODE] = "SELECT n FROM tape WHERE ch = ?1 AND barcode = ?2",
    [IN_SLOT] = "SELECT n FROM tape WHERE ch = ?1 AND slot = ?2",
    [ADD_TAPE] = "INSERT INTO tape (ch, n, slot, barcode) VALUES (?1, ?2, ?3, ?4)",
    [TAPES] = "SELECT n, barcode, slot FROM tape WHERE ch = ?1 ORDER BY n",
    [CLIPS] = "SELECT n, retired, src_first, frames, tape, umid, title FROM clip WHERE ch = ?1 ORDER BY n",
    [OFFERS] = "SELECT n, clip, grantee, withdrawn, first_day, last_day FROM offer LEFT JOIN span USING (ch, n) "
               "WHERE ch = ?1 ORDER BY n",
    [LENT] = "SELECT ch, n, withdrawn, first_day, last_day, rate, src_first, frames, umid, title FROM offer "
             "LEFT JOIN span USING (ch, n) WHERE grantee = ?1 ORDER BY ch, n",
    [DAYS] = "SELECT day, sealed FROM day WHERE ch = ?1 ORDER BY day",
    [TOLD] = "SELECT count(*), ifnull(sum(frames), 0) FROM item" OF_DAY,
    [DAY] = "SELECT sealed FROM day" OF_DAY,
    [OPEN] = "INSERT INTO day (ch, day, sealed) VALUES (?1, ?2, 0)",
    [SEAL] = "UPDATE day SET sealed = 1" OF_DAY,
    [BEFORE] = "SELECT pos, frames FROM item" OF_DAY " AND pos <= ?3 ORDER BY pos DESC LIMIT 1",
    [BEHIND] = "SELECT pos FROM item" OF_DAY " AND pos > ?3 ORDER BY pos LIMIT 1",
    [NUMBERS] = "SELECT n FROM item" OF_DAY " AND n > ?3 ORDER BY n",
    [ADD_ITEM] = "INSERT INTO item (ch, day, n, pos, frames, src_first, mix, src, kind) "
                 "VALUES (?1, ?2, ?3, ?4, ?5, ?6, ?7, ?8, ?9)",
    [ITEMS] = "SELECT n, pos, frames, src_first, mix, src, kind FROM item" OF_DAY " ORDER BY pos",
    [TAKEN] = "SELECT n, pos, frames FROM item" OF_DAY,
    [CLIP] = "SELECT retired, src_first, frames, title FROM clip WHERE ch = ?1 AND n = ?2",
    [GRANT] = "SELECT withdrawn, src_first, frames, title, rate, first_day, last_day FROM offer "
              "LEFT JOIN span USING (ch, n) WHERE ch = ?1 AND n = ?2 AND grantee = ?3",
    [BATCHES] = "SELECT count(*) FROM batch" OF_DAY,
    [ADD_BATCH] = "INSERT INTO batch (ch, day, n) VALUES (?1, ?2, ?3)",
    [LINES] = "SELECT pos, frames, src_first, src FROM aired" OF_DAY " AND batch = ?3 ORDER BY line",
    [AIRED] = "SELECT pos, frames, src_first, src FROM aired" OF_DAY,
    [ADD_LINE] = "INSERT INTO aired (ch, day, batch, line, pos, frames, src_first, src) "
                 "VALUES (?1, ?2, ?3, ?4, ?5, ?6, ?7, ?8)",
};
static sqlite3_stmt *kept[TEXTS];

// A text with these whole numbers for its parameters.
static sqlite3_stmt *asked(enum text text, int count, const sqlite3_int64 *values)
{
    sqlite3_stmt *it = kept[text];
    if (!it && sqlite3_prepare_v3(db, TEXT[text], -1, SQLITE_PREPARE_PERSISTENT, &kept[text], NULL) != SQLITE_OK)
        fail(sqlite3_errmsg(db));
    it = kept[text];
    for (int i = 0; i < count; i++)
        sqlite3_bind_int64(it, i + 1, values[i]);
    return it;
}
#define NUMBERS_OF(...) (const sqlite3_int64[]){__VA_ARGS__}
#define ASK(text, ...) asked(text, sizeof(NUMBERS_OF(__VA_ARGS__)) / sizeof(sqlite3_int64), NUMBERS_OF(__VA_ARGS__))

// Whether there is a next row. Behind the last one the text may be asked again.
static bool row(sqlite3_stmt *it)
{
    int said = sqlite3_step(it);
    if (said == SQLITE_ROW)
        return true;
    if (said != SQLITE_DONE)
        fail(sqlite3_errmsg(db));
    sqlite3_reset(it);
    return false;
}

static void run(sqlite3_stmt *it)
{
    if (row(it))
        fail("a row");
}

// The first column of the one row that may be there.
static bool found(sqlite3_stmt *it, sqlite3_int64 *value)
{
    if (!row(it))
        return false;
    *value = sqlite3_column_int64(it, 0);
    sqlite3_reset(it);
    return true;
}

static uint32_t whole(sqlite3_stmt *it, int column)
{
    return (uint32_t)sqlite3_column_int64(it, column);
}

// The bytes of a text or a blob. A text isn't ended by a zero, so nothing is copied.
static struct piece bytes(sqlite3_stmt *it, int column)
{
    char *at = (char *)sqlite3_column_blob(it, column);
    return (struct piece){at, (size_t)sqlite3_column_bytes(it, column)};
}
