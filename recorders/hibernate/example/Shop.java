import javax.persistence.Cacheable;
import javax.persistence.Entity;
import javax.persistence.Id;
import org.hibernate.CacheMode;
import org.hibernate.Session;
import org.hibernate.SessionFactory;
import org.hibernate.annotations.Cache;
import org.hibernate.annotations.CacheConcurrencyStrategy;
import org.hibernate.cfg.Configuration;
import org.hibernate.event.PostDeleteEventListener;
import org.hibernate.event.PostInsertEventListener;
import org.hibernate.event.PostUpdateEventListener;
import org.hibernate.event.PreLoadEvent;
import org.hibernate.event.PreLoadEventListener;
import hib.recorder.RecordingListener;
import hib.recorder.RecordingRegionFactory;

/**
 * A reader has selected a book, and hasn't put it into the cache yet, when a writer changes it and commits. So a nonstrict region
 * keeps the old row, and answers it from then on. The recorder's lines stand in the file of the property hib.trace.
 */
public final class Shop {
    @Entity(name = "Book")
    @Cacheable
    @Cache(usage = CacheConcurrencyStrategy.NONSTRICT_READ_WRITE)
    public static class Book {
        @Id public long id;
        public String title;
    }

    private static SessionFactory factory;
    private static volatile Runnable between;

    /** Stands between the select of a row and its put into the cache. */
    static final class Between implements PreLoadEventListener {
        public void onPreLoad(PreLoadEvent event) {
            Runnable first = between;
            between = null;
            if (first != null) first.run();
        }
    }

    public static void main(String[] words) throws Exception {
        RecordingListener recorder = new RecordingListener();
        Configuration settings = new Configuration().addAnnotatedClass(Book.class)
            .setProperty("hibernate.dialect", "org.hibernate.dialect.H2Dialect")
            .setProperty("hibernate.connection.driver_class", "org.h2.Driver")
            .setProperty("hibernate.connection.url", "jdbc:h2:mem:shop;DB_CLOSE_DELAY=-1")
            .setProperty("hibernate.hbm2ddl.auto", "create")
            .setProperty("hibernate.cache.use_second_level_cache", "true")
            .setProperty("hibernate.cache.region.factory_class", RecordingRegionFactory.class.getName());
        settings.getEventListeners().setPostInsertEventListeners(new PostInsertEventListener[] {recorder});
        settings.getEventListeners().setPostUpdateEventListeners(new PostUpdateEventListener[] {recorder});
        settings.getEventListeners().setPostDeleteEventListeners(new PostDeleteEventListener[] {recorder});
        settings.getEventListeners().setPreLoadEventListeners(new PreLoadEventListener[] {new Between()});
        factory = settings.buildSessionFactory();
        run("seller", () -> write("Dune"));
        factory.getCache().evictEntityRegions();
        between = () -> run("writer", () -> write("Dune Messiah"));
        run("reader", () -> read());
        run("late", () -> read());
        factory.close();
    }

    private static void write(String title) {
        Session session = factory.openSession();
        session.setCacheMode(CacheMode.IGNORE);
        session.beginTransaction();
        Book book = (Book) session.get(Book.class, 1L);
        if (book == null) {
            book = new Book();
            book.id = 1;
            book.title = title;
            session.save(book);
        } else {
            book.title = title;
        }
        session.getTransaction().commit();
        session.close();
    }

    private static void read() {
        Session session = factory.openSession();
        session.beginTransaction();
        Book book = (Book) session.get(Book.class, 1L);
        System.out.println(Thread.currentThread().getName() + " reads " + book.title);
        session.getTransaction().commit();
        session.close();
    }

    private static void run(String name, Runnable work) {
        Thread thread = new Thread(work, name);
        thread.start();
        try {
            thread.join();
        } catch (InterruptedException e) {
            throw new IllegalStateException(e);
        }
    }
}
