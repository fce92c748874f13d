package hib.recorder;

import java.io.Serializable;
import org.hibernate.action.AfterTransactionCompletionProcess;
import org.hibernate.action.BeforeTransactionCompletionProcess;
import org.hibernate.cache.entry.CacheEntry;
import org.hibernate.engine.SessionImplementor;
import org.hibernate.engine.Versioning;
import org.hibernate.event.EventSource;
import org.hibernate.event.PostDeleteEvent;
import org.hibernate.event.PostDeleteEventListener;
import org.hibernate.event.PostInsertEvent;
import org.hibernate.event.PostInsertEventListener;
import org.hibernate.event.PostUpdateEvent;
import org.hibernate.event.PostUpdateEventListener;
import org.hibernate.persister.entity.EntityPersister;

/**
 * Records each row that a session writes, and the commit or the rollback of its transaction. Name it as a listener of post-insert,
 * post-update and post-delete. A commit's line says an interval that the commit lies in.
 */
public final class RecordingListener implements PostInsertEventListener, PostUpdateEventListener, PostDeleteEventListener {

    public void onPostInsert(PostInsertEvent event) {
        written(event.getSession(), event.getPersister(), event.getId(), event.getState(), event.getEntity());
    }

    public void onPostUpdate(PostUpdateEvent event) {
        written(event.getSession(), event.getPersister(), event.getId(), event.getState(), event.getEntity());
    }

    public void onPostDelete(PostDeleteEvent event) {
        written(event.getSession(), event.getPersister(), event.getId(), null, event.getEntity());
    }

    private static void written(EventSource session, EntityPersister persister, Serializable id, Object[] state, Object entity) {
        final Trace.Work work = Trace.work();
        Row row = null;
        if (state != null) {
            Object version = persister.isVersioned() ? Versioning.getVersion(state, persister) : null;
            row = Row.of(new CacheEntry(state, persister, false, version, session, entity));
        }
        long now = Trace.now();
        Trace.note("write", Row.key(persister.getEntityName(), id), row, now, now, null);
        if (work.isWriting) return;
        work.isWriting = true;
        work.commitBegin = now;
        session.getActionQueue().registerProcess(new BeforeTransactionCompletionProcess() {
            public void doBeforeTransactionCompletion(SessionImplementor s) { work.commitBegin = Trace.now(); }
        });
        session.getActionQueue().registerProcess(new AfterTransactionCompletionProcess() {
            public void doAfterTransactionCompletion(boolean committed, SessionImplementor s) {
                Trace.note(committed ? "commit" : "rollback", null, null, work.commitBegin, Trace.now(), committed ? "committed" : "done");
                work.transaction++;
                work.isWriting = false;
            }
        });
    }
}
