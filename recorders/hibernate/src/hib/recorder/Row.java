package hib.recorder;

import java.util.Arrays;
import org.hibernate.cache.CacheKey;
import org.hibernate.cache.entry.CacheEntry;

/** What tells a row apart from others of its key: its version, if it has one, and a digest of its cells. */
final class Row {
    final Long version;
    final String value;

    private Row(Object version, Object[] cells) {
        this.version = version instanceof Number && ((Number) version).longValue() >= 0 ? ((Number) version).longValue() : null;
        this.value = digest(Arrays.deepToString(cells));
    }

    /** The row that a cache answers, or null if it answers none, or something else than a row. */
    static Row of(Object cached) {
        if (!(cached instanceof CacheEntry)) return null;
        CacheEntry entry = (CacheEntry) cached;
        return new Row(entry.getVersion(), entry.getDisassembledState());
    }

    /** A key as the trace has it: the entity's short name and the identifier. */
    static String key(Object key) {
        if (!(key instanceof CacheKey)) return String.valueOf(key);
        CacheKey known = (CacheKey) key;
        return key(known.getEntityOrRoleName(), known.getKey());
    }

    static String key(String entity, Object identifier) {
        return entity.substring(Math.max(entity.lastIndexOf('.'), entity.lastIndexOf('$')) + 1) + " " + identifier;
    }

    private static String digest(String text) {
        long sum = 0xcbf29ce484222325L;
        for (int i = 0; i < text.length(); i++) sum = (sum ^ text.charAt(i)) * 0x100000001b3L;
        return Long.toHexString(sum);
    }
}
