package jentry.jcache.jsr107;

import java.lang.annotation.ElementType;
import java.lang.annotation.Retention;
import java.lang.annotation.RetentionPolicy;
import java.lang.annotation.Target;

/** Names the rows of the table of deviations in docs/CLIENTS.md that a check belongs to. On the stores which one of these rows names, the check has to fail. */
@Target({ElementType.METHOD, ElementType.TYPE})
@Retention(RetentionPolicy.RUNTIME)
@interface Deviates {
    /** Returns the names of the rows, which are in bold type there. */
    String[] value();
}
