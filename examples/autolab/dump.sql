--
-- PostgreSQL database dump
--

SET statement_timeout = 0;
SET client_encoding = 'UTF8';
SET standard_conforming_strings = on;

CREATE TABLE public.users (
    id bigint NOT NULL,
    email character varying(255) NOT NULL,
    first_name character varying(255),
    last_name character varying(255),
    administrator boolean DEFAULT false NOT NULL,
    school character varying(255),
    major character varying(255),
    year character varying(255)
);


CREATE TABLE public.courses (
    id bigint NOT NULL,
    name character varying(255) NOT NULL,
    semester character varying(255),
    late_slack integer NOT NULL,
    grace_days integer NOT NULL,
    display_name character varying(255) NOT NULL,
    start_date timestamp without time zone,
    end_date timestamp without time zone,
    disabled boolean DEFAULT false NOT NULL,
    gb_message text
);


CREATE TABLE public.course_user_data (
    id bigint NOT NULL,
    lecture character varying(255),
    section character varying(255),
    grade_policy text,
    course_id bigint NOT NULL,
    user_id bigint NOT NULL,
    instructor boolean DEFAULT false NOT NULL,
    course_assistant boolean DEFAULT false NOT NULL,
    dropped boolean DEFAULT false NOT NULL,
    nickname character varying(255)
);


CREATE TABLE public.assessments (
    id bigint NOT NULL,
    course_id bigint NOT NULL,
    name character varying(255) NOT NULL,
    display_name character varying(255),
    category_name character varying(255) NOT NULL,
    start_at timestamp without time zone,
    due_at timestamp without time zone,
    end_at timestamp without time zone,
    max_submissions integer,
    disable_handins boolean,
    handout character varying(255),
    writeup character varying(255)
);


CREATE TABLE public.assessment_user_data (
    id bigint NOT NULL,
    course_user_datum_id bigint NOT NULL,
    assessment_id bigint NOT NULL,
    latest_submission_id bigint,
    grade_type integer NOT NULL,
    group_id bigint
);


CREATE TABLE public.problems (
    id bigint NOT NULL,
    name character varying(255),
    assessment_id bigint,
    max_score integer,
    optional boolean DEFAULT false NOT NULL,
    grader_id bigint
);


CREATE TABLE public.submissions (
    id bigint NOT NULL,
    version integer,
    course_user_datum_id bigint,
    assessment_id bigint,
    filename character varying(255),
    created_at timestamp without time zone NOT NULL,
    notes text,
    special_type integer,
    ignored boolean DEFAULT false NOT NULL,
    submitter_ip character varying(255)
);


CREATE TABLE public.scores (
    id bigint NOT NULL,
    submission_id bigint,
    problem_id bigint,
    score integer,
    feedback text,
    released boolean DEFAULT false NOT NULL,
    grader_id bigint
);


CREATE TABLE public.annotations (
    id bigint NOT NULL,
    submission_id bigint,
    filename character varying(255),
    line integer,
    submitted_by character varying(255),
    comment text,
    value integer,
    problem_id bigint
);


CREATE TABLE public.announcements (
    id bigint NOT NULL,
    title character varying(255),
    description text,
    start_date timestamp without time zone,
    end_date timestamp without time zone,
    course_id bigint,
    persistent boolean DEFAULT false NOT NULL,
    system boolean DEFAULT false NOT NULL
);


CREATE TABLE public.attachments (
    id bigint NOT NULL,
    filename character varying(255),
    name character varying(255),
    released boolean DEFAULT false NOT NULL,
    course_id bigint,
    assessment_id bigint
);


CREATE TABLE public.extensions (
    id bigint NOT NULL,
    course_user_datum_id bigint,
    assessment_id bigint,
    days integer,
    infinite boolean DEFAULT false NOT NULL
);


CREATE TABLE public.autograders (
    id bigint NOT NULL,
    assessment_id bigint,
    autograde_timeout integer,
    autograde_image character varying(255),
    release_score integer
);


ALTER TABLE ONLY public.users
    ADD CONSTRAINT users_pkey PRIMARY KEY (id);

ALTER TABLE ONLY public.users
    ADD CONSTRAINT users_email_key UNIQUE (email);

ALTER TABLE ONLY public.courses
    ADD CONSTRAINT courses_pkey PRIMARY KEY (id);

ALTER TABLE ONLY public.courses
    ADD CONSTRAINT courses_name_key UNIQUE (name);

ALTER TABLE ONLY public.course_user_data
    ADD CONSTRAINT course_user_data_pkey PRIMARY KEY (id);

ALTER TABLE ONLY public.course_user_data
    ADD CONSTRAINT course_user_data_user_id_course_id_key UNIQUE (user_id, course_id);

ALTER TABLE ONLY public.assessments
    ADD CONSTRAINT assessments_pkey PRIMARY KEY (id);

ALTER TABLE ONLY public.assessments
    ADD CONSTRAINT assessments_name_course_id_key UNIQUE (name, course_id);

ALTER TABLE ONLY public.assessment_user_data
    ADD CONSTRAINT assessment_user_data_pkey PRIMARY KEY (id);

ALTER TABLE ONLY public.assessment_user_data
    ADD CONSTRAINT assessment_user_data_latest_submission_id_key UNIQUE (latest_submission_id);

ALTER TABLE ONLY public.assessment_user_data
    ADD CONSTRAINT assessment_user_data_course_user_datum_id_assessment_id_key UNIQUE (course_user_datum_id, assessment_id);

ALTER TABLE ONLY public.problems
    ADD CONSTRAINT problems_pkey PRIMARY KEY (id);

ALTER TABLE ONLY public.submissions
    ADD CONSTRAINT submissions_pkey PRIMARY KEY (id);

ALTER TABLE ONLY public.scores
    ADD CONSTRAINT scores_pkey PRIMARY KEY (id);

ALTER TABLE ONLY public.scores
    ADD CONSTRAINT scores_problem_id_submission_id_key UNIQUE (problem_id, submission_id);

ALTER TABLE ONLY public.annotations
    ADD CONSTRAINT annotations_pkey PRIMARY KEY (id);

ALTER TABLE ONLY public.announcements
    ADD CONSTRAINT announcements_pkey PRIMARY KEY (id);

ALTER TABLE ONLY public.attachments
    ADD CONSTRAINT attachments_pkey PRIMARY KEY (id);

ALTER TABLE ONLY public.extensions
    ADD CONSTRAINT extensions_pkey PRIMARY KEY (id);

ALTER TABLE ONLY public.autograders
    ADD CONSTRAINT autograders_pkey PRIMARY KEY (id);

ALTER TABLE ONLY public.course_user_data
    ADD CONSTRAINT course_user_data_course_id_fkey FOREIGN KEY (course_id) REFERENCES public.courses(id);

ALTER TABLE ONLY public.course_user_data
    ADD CONSTRAINT course_user_data_user_id_fkey FOREIGN KEY (user_id) REFERENCES public.users(id);

ALTER TABLE ONLY public.assessments
    ADD CONSTRAINT assessments_course_id_fkey FOREIGN KEY (course_id) REFERENCES public.courses(id);

ALTER TABLE ONLY public.assessment_user_data
    ADD CONSTRAINT assessment_user_data_course_user_datum_id_fkey FOREIGN KEY (course_user_datum_id) REFERENCES public.course_user_data(id);

ALTER TABLE ONLY public.assessment_user_data
    ADD CONSTRAINT assessment_user_data_assessment_id_fkey FOREIGN KEY (assessment_id) REFERENCES public.assessments(id);

ALTER TABLE ONLY public.assessment_user_data
    ADD CONSTRAINT assessment_user_data_latest_submission_id_fkey FOREIGN KEY (latest_submission_id) REFERENCES public.submissions(id);

ALTER TABLE ONLY public.problems
    ADD CONSTRAINT problems_assessment_id_fkey FOREIGN KEY (assessment_id) REFERENCES public.assessments(id);

ALTER TABLE ONLY public.submissions
    ADD CONSTRAINT submissions_course_user_datum_id_fkey FOREIGN KEY (course_user_datum_id) REFERENCES public.course_user_data(id);

ALTER TABLE ONLY public.submissions
    ADD CONSTRAINT submissions_assessment_id_fkey FOREIGN KEY (assessment_id) REFERENCES public.assessments(id);

ALTER TABLE ONLY public.scores
    ADD CONSTRAINT scores_submission_id_fkey FOREIGN KEY (submission_id) REFERENCES public.submissions(id);

ALTER TABLE ONLY public.scores
    ADD CONSTRAINT scores_problem_id_fkey FOREIGN KEY (problem_id) REFERENCES public.problems(id);

ALTER TABLE ONLY public.annotations
    ADD CONSTRAINT annotations_submission_id_fkey FOREIGN KEY (submission_id) REFERENCES public.submissions(id);

ALTER TABLE ONLY public.announcements
    ADD CONSTRAINT announcements_course_id_fkey FOREIGN KEY (course_id) REFERENCES public.courses(id);

ALTER TABLE ONLY public.attachments
    ADD CONSTRAINT attachments_course_id_fkey FOREIGN KEY (course_id) REFERENCES public.courses(id);

ALTER TABLE ONLY public.attachments
    ADD CONSTRAINT attachments_assessment_id_fkey FOREIGN KEY (assessment_id) REFERENCES public.assessments(id);

ALTER TABLE ONLY public.extensions
    ADD CONSTRAINT extensions_course_user_datum_id_fkey FOREIGN KEY (course_user_datum_id) REFERENCES public.course_user_data(id);

ALTER TABLE ONLY public.extensions
    ADD CONSTRAINT extensions_assessment_id_fkey FOREIGN KEY (assessment_id) REFERENCES public.assessments(id);

ALTER TABLE ONLY public.autograders
    ADD CONSTRAINT autograders_assessment_id_fkey FOREIGN KEY (assessment_id) REFERENCES public.assessments(id);

--
-- PostgreSQL database dump complete
--
