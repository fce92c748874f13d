package hib.recorder;

import java.util.Map;
import org.hibernate.cache.CacheDataDescription;
import org.hibernate.cache.EntityRegion;
import org.hibernate.cache.access.AccessType;
import org.hibernate.cache.access.EntityRegionAccessStrategy;

/** An entity's region whose calls are recorded. */
final class RecordingRegion implements EntityRegion {
    private final EntityRegion under;

    RecordingRegion(EntityRegion under) { this.under = under; }

    public EntityRegionAccessStrategy buildAccessStrategy(AccessType type) {
        return new RecordingAccess(this, under.buildAccessStrategy(type));
    }

    public boolean isTransactionAware() { return under.isTransactionAware(); }
    public CacheDataDescription getCacheDataDescription() { return under.getCacheDataDescription(); }
    public String getName() { return under.getName(); }
    public void destroy() { under.destroy(); }
    public boolean contains(Object key) { return under.contains(key); }
    public long getSizeInMemory() { return under.getSizeInMemory(); }
    public long getElementCountInMemory() { return under.getElementCountInMemory(); }
    public long getElementCountOnDisk() { return under.getElementCountOnDisk(); }
    public Map toMap() { return under.toMap(); }
    public long nextTimestamp() { return under.nextTimestamp(); }
    public int getTimeout() { return under.getTimeout(); }
}
