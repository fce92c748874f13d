package hib.recorder;

import org.hibernate.cache.EntityRegion;
import org.hibernate.cache.access.EntityRegionAccessStrategy;
import org.hibernate.cache.access.SoftLock;

/** The calls on an entity's region: each is handed on, and its line is written when it has returned. */
final class RecordingAccess implements EntityRegionAccessStrategy {
    private final EntityRegion region;
    private final EntityRegionAccessStrategy under;

    RecordingAccess(EntityRegion region, EntityRegionAccessStrategy under) {
        this.region = region;
        this.under = under;
    }

    public EntityRegion getRegion() { return region; }

    public Object get(Object key, long timestamp) {
        long begin = Trace.now();
        Object answer = under.get(key, timestamp);
        long end = Trace.now();
        String name = Row.key(key);
        Row row = Row.of(answer);
        if (row != null) {
            Trace.note("hit", name, row, begin, end, null);
        } else if (answer == null) {
            Trace.note("miss", name, null, begin, end, null);
            Trace.work().missed = name;
            Trace.work().missedAt = end;
        }
        return answer;
    }

    public boolean putFromLoad(Object key, Object value, long timestamp, Object version) {
        long begin = loaded(key, value);
        boolean stored = under.putFromLoad(key, value, timestamp, version);
        return put(key, value, begin, stored);
    }

    public boolean putFromLoad(Object key, Object value, long timestamp, Object version, boolean minimal) {
        long begin = loaded(key, value);
        boolean stored = under.putFromLoad(key, value, timestamp, version, minimal);
        return put(key, value, begin, stored);
    }

    /** The row was loaded between this thread's miss of the key and now. */
    private static long loaded(Object key, Object value) {
        long now = Trace.now();
        Trace.Work work = Trace.work();
        String name = Row.key(key);
        if (name.equals(work.missed)) Trace.note("load", name, Row.of(value), work.missedAt, now, null);
        work.missed = null;
        return Trace.now();
    }

    private static boolean put(Object key, Object value, long begin, boolean stored) {
        Trace.note("put", Row.key(key), Row.of(value), begin, Trace.now(), stored ? "stored" : "refused");
        return stored;
    }

    public SoftLock lockItem(Object key, Object version) {
        long begin = Trace.now();
        SoftLock lock = under.lockItem(key, version);
        Trace.note("lock", Row.key(key), null, begin, Trace.now(), null);
        return lock;
    }

    public void unlockItem(Object key, SoftLock lock) {
        long begin = Trace.now();
        under.unlockItem(key, lock);
        Trace.note("unlock", Row.key(key), null, begin, Trace.now(), null);
    }

    public boolean insert(Object key, Object value, Object version) { return under.insert(key, value, version); }

    public boolean afterInsert(Object key, Object value, Object version) {
        long begin = Trace.now();
        return put(key, value, begin, under.afterInsert(key, value, version));
    }

    public boolean update(Object key, Object value, Object current, Object previous) {
        return under.update(key, value, current, previous);
    }

    public boolean afterUpdate(Object key, Object value, Object current, Object previous, SoftLock lock) {
        long begin = Trace.now();
        return put(key, value, begin, under.afterUpdate(key, value, current, previous, lock));
    }

    public void remove(Object key) {
        long begin = Trace.now();
        under.remove(key);
        Trace.note("drop", Row.key(key), null, begin, Trace.now(), null);
    }

    public void evict(Object key) {
        long begin = Trace.now();
        under.evict(key);
        Trace.note("drop", Row.key(key), null, begin, Trace.now(), null);
    }

    public SoftLock lockRegion() { return under.lockRegion(); }
    public void unlockRegion(SoftLock lock) { under.unlockRegion(lock); }
    public void removeAll() { under.removeAll(); }
    public void evictAll() { under.evictAll(); }
}
