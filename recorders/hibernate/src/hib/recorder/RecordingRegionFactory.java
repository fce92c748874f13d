package hib.recorder;

import java.util.Properties;
import org.hibernate.cache.CacheDataDescription;
import org.hibernate.cache.CacheException;
import org.hibernate.cache.CollectionRegion;
import org.hibernate.cache.EntityRegion;
import org.hibernate.cache.QueryResultsRegion;
import org.hibernate.cache.RegionFactory;
import org.hibernate.cache.TimestampsRegion;
import org.hibernate.cache.access.AccessType;
import org.hibernate.cfg.Settings;

/**
 * Regions of another factory, whose calls on entities are recorded. Name it as {@code hibernate.cache.region.factory_class}, and
 * the other one as {@code hib.recorder.factory}; that is Ehcache's if it isn't named. Lists and collections aren't recorded.
 */
public final class RecordingRegionFactory implements RegionFactory {
    private final RegionFactory under;

    /** Hibernate hands the settings in. */
    public RecordingRegionFactory(Properties settings) {
        String name = settings.getProperty("hib.recorder.factory", "net.sf.ehcache.hibernate.EhCacheRegionFactory");
        try {
            under = (RegionFactory) Class.forName(name).getConstructor(Properties.class).newInstance(settings);
        } catch (ReflectiveOperationException e) {
            throw new CacheException("hib.recorder.factory can't be made: " + name, e);
        }
    }

    public void start(Settings settings, Properties properties) { under.start(settings, properties); }
    public void stop() { under.stop(); Trace.flush(); }
    public boolean isMinimalPutsEnabledByDefault() { return under.isMinimalPutsEnabledByDefault(); }
    public AccessType getDefaultAccessType() { return under.getDefaultAccessType(); }
    public long nextTimestamp() { return under.nextTimestamp(); }

    public EntityRegion buildEntityRegion(String name, Properties properties, CacheDataDescription data) {
        return new RecordingRegion(under.buildEntityRegion(name, properties, data));
    }

    public CollectionRegion buildCollectionRegion(String name, Properties properties, CacheDataDescription data) {
        return under.buildCollectionRegion(name, properties, data);
    }

    public QueryResultsRegion buildQueryResultsRegion(String name, Properties properties) {
        return under.buildQueryResultsRegion(name, properties);
    }

    public TimestampsRegion buildTimestampsRegion(String name, Properties properties) {
        return under.buildTimestampsRegion(name, properties);
    }
}
